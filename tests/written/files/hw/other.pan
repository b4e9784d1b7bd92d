structure template hw/box; 'a' = 1;
