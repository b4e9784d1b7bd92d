object template misspelled_include;

include 'typos';
