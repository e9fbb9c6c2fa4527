.task A create=$8 targets=-
A: li $8,12ab !f # twelve
   halt
