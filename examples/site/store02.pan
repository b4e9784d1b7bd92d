object template store02;

variable STAGE = 'prod';
variable RACK = 5;
variable PLACE = 12;
include 'site/machine';
'/hardware' = create('hardware/tray', 'serial', 'T3002');
include 'service/storage';
