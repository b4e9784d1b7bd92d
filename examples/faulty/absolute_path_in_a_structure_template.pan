object template absolute_path_in_a_structure_template;

'/disk' = create('wrong_part');
