structure template part;

'size' = 1;
