object template db07;

variable STAGE = 'prod';
variable RACK = 4;
variable PLACE = 17;
include 'site/machine';
'/hardware' = create('hardware/blade', 'serial', 'B2007');
include 'service/database';
