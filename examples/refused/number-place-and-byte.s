.task A create=- targets=@0,@4097
A: halt
.data
.byte 1,256,2
