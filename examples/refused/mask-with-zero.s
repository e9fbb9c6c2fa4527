.task A create=$8,$zero targets=-
A: halt
