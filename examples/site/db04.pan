object template db04;

variable STAGE = 'prod';
variable RACK = 4;
variable PLACE = 14;
include 'site/machine';
'/hardware' = create('hardware/blade', 'serial', 'B2004');
include 'service/database';
