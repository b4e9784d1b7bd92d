unique template service/web;

'/role' = 'web';
'/services/http' = dict('port', 80, 'root', '/srv/www');
'/services/https' = dict('port', 443, 'root', '/srv/www');
'/system/packages' = append('nginx');
