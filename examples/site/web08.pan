object template web08;

variable STAGE = 'prod';
variable RACK = 3;
variable PLACE = 18;
include 'site/machine';
'/hardware' = create('hardware/blade', 'serial', 'B1008');
include 'service/web';
