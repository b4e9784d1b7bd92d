object template db;
'/x' = 7;
