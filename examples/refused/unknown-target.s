.task Loop create=$8 targets=Loop,Lop
Loop: addiu $8,$8,1 !f !s
