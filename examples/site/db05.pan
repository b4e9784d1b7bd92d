object template db05;

variable STAGE = 'prod';
variable RACK = 4;
variable PLACE = 15;
include 'site/machine';
'/hardware' = create('hardware/blade', 'serial', 'B2005');
include 'service/database';
