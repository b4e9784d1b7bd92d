structure template hw/none; include { undef }; include { null };
