object template web10;

variable STAGE = 'prod';
variable RACK = 2;
variable PLACE = 20;
include 'site/machine';
'/hardware' = create('hardware/blade', 'serial', 'B1010');
include 'service/web';
