structure template hw/back; 'a' = { return(1); 2; }; 'b' = 3;
