object template ring;
'/x' = value('bring:/x');
