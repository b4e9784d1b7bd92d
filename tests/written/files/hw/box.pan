structure template hw/box; 'serial' = 'none'; 'disks/sda' = 500;
