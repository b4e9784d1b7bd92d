object template web06;

variable STAGE = 'prod';
variable RACK = 1;
variable PLACE = 16;
include 'site/machine';
'/hardware' = create('hardware/blade', 'serial', 'B1006');
include 'service/web';
