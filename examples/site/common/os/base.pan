# What every machine runs. A stage (the first entry of LOADPATH) may have its own `os/release`.
template os/base;

include 'os/release';
prefix '/system';
'packages' = append('openssh-server');
'packages' = append('chrony');
'sysctl/vm.swappiness' ?= 10;
