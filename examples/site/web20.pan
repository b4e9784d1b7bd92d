object template web20;

variable STAGE = 'prod';
variable RACK = 3;
variable PLACE = 30;
include 'site/machine';
'/hardware' = create('hardware/blade', 'serial', 'B1020');
include 'service/web';
