# CR LF between lines, and no line feed at the end.
.task A create=- targets=A
A: hlat
   addu r8,$9,$10