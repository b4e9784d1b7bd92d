object template web11;

variable STAGE = 'prod';
variable RACK = 3;
variable PLACE = 21;
include 'site/machine';
'/hardware' = create('hardware/blade', 'serial', 'B1011');
include 'service/web';
