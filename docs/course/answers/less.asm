; Three threads with a read-only pointer: one wants more rights, one wants a permission that does not exist, and one
; makes a key and tries to load through it.
.segment more 4
  ldi r2, 2
  restrict r3, r1, r2
.segment odd 4
  ldi r2, 8
  restrict r3, r1, r2
.segment lock 5
  ldi r2, 7
  restrict r3, r1, r2
  isptr r4, r3
  ld r5, r3, 0, any, keep
.segment note 3
  .int 65
.thread 0 0 none xu more
.reg 1 ptr ro note
.thread 1 1 none xu odd
.reg 1 ptr ro note
.thread 2 2 none xu lock
.reg 1 ptr ro note
