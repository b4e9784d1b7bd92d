# Each machine includes this first: STAGE, RACK and PLACE are set before.
template site/machine;

variable LOADPATH = list(STAGE, 'common');
include 'schema/types';
include 'site/functions';
bind '/' = machine;
'/name' = OBJECT;
'/network/eth0' = interface_at(RACK, PLACE);
include 'os/base';
