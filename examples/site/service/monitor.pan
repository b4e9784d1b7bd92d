unique template service/monitor;

'/role' = 'monitor';
'/services/prometheus' = dict('port', 9090);
'/system/packages' = append('prometheus');
