# A blade with twelve large disks beside its own.
structure template hardware/tray;

include 'hardware/blade';
'model' = 'tray 12';
'disks' = {
    for (i = 0; i < 12; i = i + 1) {
        SELF['d' + to_string(i)] = dict('size', 8000, 'kind', 'hdd');
    };
    SELF;
};
