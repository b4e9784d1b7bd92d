object template text_for_a_number;

include 'types';
bind '/' = host;
'/name' = 'a';
'/port' = '80';
