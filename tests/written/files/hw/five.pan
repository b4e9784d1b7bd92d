structure template hw/five; include { 5 };
