; Shifts alone, and another pointer.
.segment main 7
  ldi r5, 60
  shr r2, r1, r5
  ldi r5, 4
  shl r3, r1, r5
  ldi r5, 58
  shr r3, r3, r5
  ldi r5, 10
  shl r4, r1, r5
  shr r4, r4, r5
  halt
.segment cell 3
  .int 7
.thread 0 0 none xu main
.reg 1 ptr key cell
