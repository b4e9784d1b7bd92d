object template web18;

variable STAGE = 'prod';
variable RACK = 1;
variable PLACE = 28;
include 'site/machine';
'/hardware' = create('hardware/blade', 'serial', 'B1018');
include 'service/web';
