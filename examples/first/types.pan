declaration template types;

type host = {
    'name' : string
    'port' : long(1..65535) = 80
};
