object template broken;
'/x' = 1 / 0;
