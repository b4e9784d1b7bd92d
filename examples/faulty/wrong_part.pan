structure template wrong_part;

'/size' = 1;
