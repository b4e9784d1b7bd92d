structure template hw/call; 't' = f(); 'o' = OBJECT;
