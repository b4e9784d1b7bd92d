object template store01;

variable STAGE = 'prod';
variable RACK = 5;
variable PLACE = 11;
include 'site/machine';
'/hardware' = create('hardware/tray', 'serial', 'T3001');
include 'service/storage';
