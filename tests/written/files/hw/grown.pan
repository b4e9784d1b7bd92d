structure template hw/grown; include { append(1); 'hw/box' };
