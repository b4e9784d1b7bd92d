# What a machine is. A profile that breaks a rule of this file is never written.
declaration template schema/types;

type address = string with {
    parts = ip4_to_long(SELF);
    length(parts) == 1;
};
type host_name = string with match(SELF, '^[a-z][a-z0-9-]*([.][a-z][a-z0-9-]*)*$');
type port = long(1..65535);
type interface = {
    'address' : address
    'netmask' : address = '255.255.255.0'
    'gateway' ? address
};
type disk = {
    'size' : long(1..)
    'kind' : choice('ssd', 'hdd') = 'ssd'
};
type hardware = {
    'model' : string
    'serial' : string(1..40)
    'cpus' : long(1..256)
    'memory' : long(1..)
    'disks' : disk { 1..}
};
type system = {
    'name' : string
    'version' : string
    'packages' : string[]
    'kernel' ? string
    'sysctl' : long { } = dict()
};
type service = extensible {
    'port' : port
    'enabled' : boolean = true
};
type machine = {
    'name' : host_name
    'role' : choice('web', 'database', 'storage', 'monitor')
    'network' : interface { 1..}
    'hardware' : hardware
    'system' : system
    'services' : service { } = dict()
    'watched' ? string *[]
};
