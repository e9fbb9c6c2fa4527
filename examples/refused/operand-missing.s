.task A create=$8 targets=
A: addu $8,$8, !f
   release $8,
   halt $8
