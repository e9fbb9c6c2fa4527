.task T0 create=- targets=T0
.task T1 create=- targets=T1
.task T2 create=- targets=T2
.task T3 create=- targets=T3
.task T4 create=- targets=T4
.task T5 create=- targets=T5
.task T6 create=- targets=T6
.task T7 create=- targets=T7
.task T8 create=- targets=T8
.task T9 create=- targets=T9
.task T10 create=- targets=T10
.task T11 create=- targets=T11
.task T12 create=- targets=T12
.task T13 create=- targets=T13
.task T14 create=- targets=T14
.task T15 create=- targets=T15
.task T16 create=- targets=T16
.task T17 create=- targets=T17
.task T18 create=- targets=T18
.task T19 create=- targets=T19
.task T20 create=- targets=T20
.task T21 create=- targets=T21
.task T22 create=- targets=T22
.task T23 create=- targets=T23
.task T24 create=- targets=T24
.task T25 create=- targets=T25
.task T26 create=- targets=T26
.task T27 create=- targets=T27
.task T28 create=- targets=T28
.task T29 create=- targets=T29
.task T30 create=- targets=T30
.task T31 create=- targets=T31
.task T32 create=- targets=T32
.task T33 create=- targets=T33
.task T34 create=- targets=T34
.task T35 create=- targets=T35
.task T36 create=- targets=T36
.task T37 create=- targets=T37
.task T38 create=- targets=T38
.task T39 create=- targets=T39
.task T40 create=- targets=T40
.task T41 create=- targets=T41
.task T42 create=- targets=T42
.task T43 create=- targets=T43
.task T44 create=- targets=T44
.task T45 create=- targets=T45
.task T46 create=- targets=T46
.task T47 create=- targets=T47
T0:
nop
nop
nop
nop
nop
nop
nop
T1:
nop
nop
nop
nop
nop
nop
nop
T2:
nop
nop
nop
nop
nop
nop
T3:
nop
nop
nop
nop
nop
nop
nop
T4:
nop
nop
nop
nop
nop
nop
nop
T5:
nop
nop
nop
nop
nop
nop
T6:
nop
nop
nop
nop
nop
nop
nop
T7:
nop
nop
nop
nop
nop
nop
nop
T8:
nop
nop
nop
nop
nop
nop
T9:
nop
nop
nop
nop
nop
nop
nop
T10:
nop
nop
nop
nop
nop
nop
nop
T11:
nop
nop
nop
nop
nop
nop
T12:
nop
nop
nop
nop
nop
nop
nop
T13:
nop
nop
nop
nop
nop
nop
nop
T14:
nop
nop
nop
nop
nop
nop
T15:
nop
nop
nop
nop
nop
nop
nop
T16:
nop
nop
nop
nop
nop
nop
nop
T17:
nop
nop
nop
nop
nop
nop
T18:
nop
nop
nop
nop
nop
nop
nop
T19:
nop
nop
nop
nop
nop
nop
nop
T20:
nop
nop
nop
nop
nop
nop
T21:
nop
nop
nop
nop
nop
nop
nop
T22:
nop
nop
nop
nop
nop
nop
nop
T23:
nop
nop
nop
nop
nop
nop
T24:
nop
nop
nop
nop
nop
nop
nop
T25:
nop
nop
nop
nop
nop
nop
nop
T26:
nop
nop
nop
nop
nop
nop
T27:
nop
nop
nop
nop
nop
nop
nop
T28:
nop
nop
nop
nop
nop
nop
nop
T29:
nop
nop
nop
nop
nop
nop
T30:
nop
nop
nop
nop
nop
nop
nop
T31:
nop
nop
nop
nop
nop
nop
nop
T32:
nop
nop
nop
nop
nop
nop
T33:
nop
nop
nop
nop
nop
nop
nop
T34:
nop
nop
nop
nop
nop
nop
nop
T35:
nop
nop
nop
nop
nop
nop
T36:
nop
nop
nop
nop
nop
nop
nop
T37:
nop
nop
nop
nop
nop
nop
nop
T38:
nop
nop
nop
nop
nop
nop
T39:
nop
nop
nop
nop
nop
nop
nop
T40:
nop
nop
nop
nop
nop
nop
nop
T41:
nop
nop
nop
nop
nop
nop
T42:
nop
nop
nop
nop
nop
nop
nop
T43:
nop
nop
nop
nop
nop
nop
nop
T44:
nop
nop
nop
nop
nop
nop
T45:
nop
nop
nop
nop
nop
nop
nop
T46:
nop
nop
nop
nop
nop
nop
nop
T47:
nop
nop
nop
nop
addiu $8,$8,1
j T0
