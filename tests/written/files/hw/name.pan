structure template hw/name; 't' = TEMPLATE; 'a' = exists('/a');
