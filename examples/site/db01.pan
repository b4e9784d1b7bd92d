object template db01;

variable STAGE = 'prod';
variable RACK = 4;
variable PLACE = 11;
include 'site/machine';
'/hardware' = create('hardware/blade', 'serial', 'B2001');
include 'service/database';
'/hardware/memory' = 262144;
