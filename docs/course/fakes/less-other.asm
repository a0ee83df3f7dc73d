; The faults, at other instructions.
.segment more 4
  st r1, r2, 0, any, keep
  halt
.segment odd 4
  ldi r2, 8
  restrict r3, r1, r2
.segment lock 5
  st r1, r2, 0, any, keep
  halt
  isptr r4, r3
.segment note 3
  .int 65
.thread 0 0 none xu more
.reg 1 ptr ro note
.thread 1 1 none xu odd
.reg 1 ptr ro note
.thread 2 2 none xu lock
.reg 1 ptr ro note
