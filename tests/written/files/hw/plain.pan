template hw/plain; '/a' = 1;
