structure template hw/abs; '/a' = 1;
