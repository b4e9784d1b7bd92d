structure template hw/self; 'l' = append(1); 'l' = append(2);
