object template store04;

variable STAGE = 'prod';
variable RACK = 5;
variable PLACE = 14;
include 'site/machine';
'/hardware' = create('hardware/tray', 'serial', 'T3004');
include 'service/storage';
