template os/release;

prefix '/system';
'name' = 'almalinux';
'version' = '9.4';
