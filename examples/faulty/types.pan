declaration template types;

type port = long(1..65535);
type host = { 'name' : string 'port' : port };
