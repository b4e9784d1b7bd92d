structure template hw/loop; include 'hw/loop';
