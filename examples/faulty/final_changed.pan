object template final_changed;

final '/name' = 'a';
'/name' = 'b';
