object template db06;

variable STAGE = 'prod';
variable RACK = 4;
variable PLACE = 16;
include 'site/machine';
'/hardware' = create('hardware/blade', 'serial', 'B2006');
include 'service/database';
