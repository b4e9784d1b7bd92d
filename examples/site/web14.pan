object template web14;

variable STAGE = 'prod';
variable RACK = 3;
variable PLACE = 24;
include 'site/machine';
'/hardware' = create('hardware/blade', 'serial', 'B1014');
include 'service/web';
