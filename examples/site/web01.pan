object template web01;

variable STAGE = 'prod';
variable RACK = 2;
variable PLACE = 11;
include 'site/machine';
'/hardware' = create('hardware/blade', 'serial', 'B1001');
include 'service/web';
