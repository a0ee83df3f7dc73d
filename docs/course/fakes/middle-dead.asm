; The letter and the fault through the whole pointer, and a `subseg` for nothing.
.segment main 6
  ldi r3, 4
  subseg r4, r1, r3
  leai r2, r1, 16
  ld r7, r2, 0, any, keep
  out r7
  leai r6, r2, 64
.segment letters 6
  .int 65
  .int 66
  .int 67
  .int 68
  .int 69
  .int 70
  .int 71
  .int 72
.thread 0 0 none xu main
.reg 1 ptr ro letters
