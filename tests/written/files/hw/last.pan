structure template hw/last; final 'a' = 1;
