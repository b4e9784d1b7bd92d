object template web23;

variable STAGE = 'test';
variable RACK = 3;
variable PLACE = 33;
include 'site/machine';
'/hardware' = create('hardware/blade', 'serial', 'B1023');
include 'service/web';
