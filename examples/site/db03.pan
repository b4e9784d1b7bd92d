object template db03;

variable STAGE = 'prod';
variable RACK = 4;
variable PLACE = 13;
include 'site/machine';
'/hardware' = create('hardware/blade', 'serial', 'B2003');
include 'service/database';
