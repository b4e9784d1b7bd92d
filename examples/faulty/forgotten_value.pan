object template forgotten_value;

include 'types';
bind '/' = host;
'/name' = 'a';
