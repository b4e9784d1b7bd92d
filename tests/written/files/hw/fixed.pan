structure template hw/fixed; include { SELF['x'] = 1; 'hw/box' };
