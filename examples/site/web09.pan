object template web09;

variable STAGE = 'prod';
variable RACK = 1;
variable PLACE = 19;
include 'site/machine';
'/hardware' = create('hardware/blade', 'serial', 'B1009');
include 'service/web';
