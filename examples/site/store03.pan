object template store03;

variable STAGE = 'prod';
variable RACK = 5;
variable PLACE = 13;
include 'site/machine';
'/hardware' = create('hardware/tray', 'serial', 'T3003');
include 'service/storage';
