structure template hardware/blade;

'model' = 'blade 4';
'serial' = undef;
'cpus' = 16;
'memory' = 65536;
'disks/sda/size' = 500;
