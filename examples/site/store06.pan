object template store06;

variable STAGE = 'prod';
variable RACK = 5;
variable PLACE = 16;
include 'site/machine';
'/hardware' = create('hardware/tray', 'serial', 'T3006');
include 'service/storage';
