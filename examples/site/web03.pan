object template web03;

variable STAGE = 'prod';
variable RACK = 1;
variable PLACE = 13;
include 'site/machine';
'/hardware' = create('hardware/blade', 'serial', 'B1003');
include 'service/web';
