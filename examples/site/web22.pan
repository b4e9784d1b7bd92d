object template web22;

variable STAGE = 'test';
variable RACK = 2;
variable PLACE = 32;
include 'site/machine';
'/hardware' = create('hardware/blade', 'serial', 'B1022');
include 'service/web';
