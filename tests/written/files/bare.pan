object template bare;
'/y' = 1;
