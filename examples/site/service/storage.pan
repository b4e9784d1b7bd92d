unique template service/storage;

'/role' = 'storage';
'/services/nfs' = dict('port', 2049);
'/system/packages' = append('nfs-utils');
