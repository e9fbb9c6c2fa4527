.task A create=$8 targets=-
A:
   adu $8,$8,$9 !f
   hlat !s
