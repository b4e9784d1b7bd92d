# The test stage is one release ahead.
template os/release;

prefix '/system';
'name' = 'almalinux';
'version' = '10.0';
'kernel' = '6.12';
