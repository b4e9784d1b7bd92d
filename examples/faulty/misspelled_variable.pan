object template misspelled_variable;

variable NAME = 'a';
'/name' = NAEM;
