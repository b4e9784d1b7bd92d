object template db08;

variable STAGE = 'prod';
variable RACK = 4;
variable PLACE = 18;
include 'site/machine';
'/hardware' = create('hardware/blade', 'serial', 'B2008');
include 'service/database';
