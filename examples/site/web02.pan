object template web02;

variable STAGE = 'prod';
variable RACK = 3;
variable PLACE = 12;
include 'site/machine';
'/hardware' = create('hardware/blade', 'serial', 'B1002');
include 'service/web';
