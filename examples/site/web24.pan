object template web24;

variable STAGE = 'test';
variable RACK = 1;
variable PLACE = 34;
include 'site/machine';
'/hardware' = create('hardware/blade', 'serial', 'B1024');
include 'service/web';
