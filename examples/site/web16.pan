object template web16;

variable STAGE = 'prod';
variable RACK = 2;
variable PLACE = 26;
include 'site/machine';
'/hardware' = create('hardware/blade', 'serial', 'B1016');
include 'service/web';
