object template web19;

variable STAGE = 'prod';
variable RACK = 2;
variable PLACE = 29;
include 'site/machine';
'/hardware' = create('hardware/blade', 'serial', 'B1019');
include 'service/web';
