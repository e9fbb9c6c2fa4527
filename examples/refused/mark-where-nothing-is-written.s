.task A create=$8 targets=-
A: li $8,70000
   out $8 !f
   j A !s
