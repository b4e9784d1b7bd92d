object template web04;

variable STAGE = 'prod';
variable RACK = 2;
variable PLACE = 14;
include 'site/machine';
'/hardware' = create('hardware/blade', 'serial', 'B1004');
include 'service/web';
