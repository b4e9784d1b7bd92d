object template extra_field;

include 'types';
bind '/' = host;
'/name' = 'a';
'/port' = 80;
'/prot' = 'tcp';
