object template forgotten_semicolon;

'/name' = 'a'
'/port' = 80;
