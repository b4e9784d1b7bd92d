object template through_a_value;

'/name' = 'a';
'/name/short' = 'b';
