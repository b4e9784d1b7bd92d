structure template hw/bad; 'a' = ;
