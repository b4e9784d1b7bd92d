structure template hw/nest; 'b' = create('hw/box', 'serial', 'in');
