unique template service/database;

'/role' = 'database';
'/services/postgres' = dict('port', 5432, 'connections', 20 * value('/hardware/cpus'));
'/system/packages' = append('postgresql-server');
'/system/sysctl/vm.overcommit_memory' = 2;
valid '/hardware/memory' = SELF >= 32768;
