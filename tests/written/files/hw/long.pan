structure template hw/long; include { append(SELF, 1); 'hw/box' };
