object template out_of_range;

include 'types';
bind '/' = host;
'/name' = 'a';
'/port' = 70000;
