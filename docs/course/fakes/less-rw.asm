; The pointers are rw.
.segment more 5
  ldi r2, 3
  restrict r3, r1, r2
  halt
.segment odd 5
  ldi r2, 8
  restrict r3, r1, r2
  halt
.segment lock 6
  ldi r2, 5
  restrict r3, r1, r2
  isptr r4, r3
  ld r5, r3, 0, any, keep
  halt
.segment d 3
  .int 1
.thread 0 0 none xu more
.reg 1 ptr rw d
.thread 1 0 none xu odd
.reg 1 ptr rw d
.thread 2 0 none xu lock
.reg 1 ptr rw d
