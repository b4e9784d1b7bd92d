structure template hw/argc; 'a' = ARGC;
