structure template hw/own; include { if (is_defined(SELF)) 'hw/box' else 'hw/none' };
