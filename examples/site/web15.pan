object template web15;

variable STAGE = 'prod';
variable RACK = 1;
variable PLACE = 25;
include 'site/machine';
'/hardware' = create('hardware/blade', 'serial', 'B1015');
include 'service/web';
