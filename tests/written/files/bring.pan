object template bring;
'/x' = value('ring:/x');
