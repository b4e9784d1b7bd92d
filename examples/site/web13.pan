object template web13;

variable STAGE = 'prod';
variable RACK = 2;
variable PLACE = 23;
include 'site/machine';
'/hardware' = create('hardware/blade', 'serial', 'B1013');
include 'service/web';
