object template web1;

include 'types';
bind '/' = host;
'/name' = OBJECT;
