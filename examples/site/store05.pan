object template store05;

variable STAGE = 'prod';
variable RACK = 5;
variable PLACE = 15;
include 'site/machine';
'/hardware' = create('hardware/tray', 'serial', 'T3005');
include 'service/storage';
