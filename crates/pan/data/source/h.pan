object template h;
'/a/b' = 1;
'/a/c' = 'x';
