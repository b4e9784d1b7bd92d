structure template hw/give; include { return('hw/box'); 5 };
