; The letter through the whole pointer, and a fault that has nothing to do with it.
.segment main 6
  ld r7, r1, 16, any, keep
  out r7
  ld r7, r1, 64, any, keep
  subseg r4, r2, r3
.segment letters 6
  .int 65
  .int 66
  .int 67
  .int 68
  .int 69
  .int 70
  .int 71
  .int 72
.thread 0 0 none xu main
.reg 1 ptr ro letters
