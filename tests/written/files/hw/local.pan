structure template hw/local; 'a' = x;
