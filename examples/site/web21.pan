object template web21;

variable STAGE = 'test';
variable RACK = 1;
variable PLACE = 31;
include 'site/machine';
'/hardware' = create('hardware/blade', 'serial', 'B1021');
include 'service/web';
