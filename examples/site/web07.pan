object template web07;

variable STAGE = 'prod';
variable RACK = 2;
variable PLACE = 17;
include 'site/machine';
'/hardware' = create('hardware/blade', 'serial', 'B1007');
include 'service/web';
