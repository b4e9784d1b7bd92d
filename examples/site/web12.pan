object template web12;

variable STAGE = 'prod';
variable RACK = 1;
variable PLACE = 22;
include 'site/machine';
'/hardware' = create('hardware/blade', 'serial', 'B1012');
include 'service/web';
