object template web05;

variable STAGE = 'prod';
variable RACK = 3;
variable PLACE = 15;
include 'site/machine';
'/hardware' = create('hardware/blade', 'serial', 'B1005');
include 'service/web';
