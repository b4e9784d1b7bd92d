object template web17;

variable STAGE = 'prod';
variable RACK = 3;
variable PLACE = 27;
include 'site/machine';
'/hardware' = create('hardware/blade', 'serial', 'B1017');
include 'service/web';
