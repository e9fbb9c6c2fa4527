# Two calls of a function that is two tasks.
.start MAIN
.task MAIN create=$4,$31 targets=F
.task A1 create=$4,$31 targets=F
.task A2 create=- targets=-
.task F create=$2 targets=G
.task G create=$2 targets=A1,A2
MAIN: li $4,3 !f
 jal F !f !s
A1: addiu $4,$4,1 !f
 jal F !f !s
A2: out $2
 halt
F: addu $2,$4,$4 !f !s
G: addu $2,$2,$4 !f
 jr $31 !s
