structure template hw/extra; 'e' = true;
