object template db02;

variable STAGE = 'prod';
variable RACK = 4;
variable PLACE = 12;
include 'site/machine';
'/hardware' = create('hardware/blade', 'serial', 'B2002');
include 'service/database';
'/hardware/memory' = 262144;
