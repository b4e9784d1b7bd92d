structure template hw/rack; include 'hw/box'; 'slots' ?= 2; 'serial' ?= 'never';
