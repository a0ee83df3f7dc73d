; No key is made: slot 0 asks for ro of a key, and slot 2 loads through an enter pointer.
.segment more 5
  ldi r2, 2
  restrict r3, r1, r2
.segment odd 5
  ldi r2, 8
  restrict r3, r1, r2
.segment lock 6
  ldi r2, 1
  restrict r3, r1, r2
  isptr r4, r3
  ld r5, r6, 0, any, keep
.segment d 3
  .int 1
.thread 0 0 none xu more
.reg 1 ptr key d
.thread 1 0 none xu odd
.reg 1 ptr rw d
.thread 2 0 none xu lock
.reg 1 ptr rw d
.reg 6 ptr eu lock
