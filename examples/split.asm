; Two threads add up the same four words. The first uses each word at once; the second asks for all of them before it uses the first.
.segment eager 7
  ld r2, r1, 0, any, keep
  add r6, r6, r2
  ld r2, r1, 8, any, keep
  add r6, r6, r2
  ld r2, r1, 16, any, keep
  add r6, r6, r2
  ld r2, r1, 24, any, keep
  add r6, r6, r2
  halt
.segment early 7
  ld r2, r1, 0, any, keep
  ld r3, r1, 8, any, keep
  ld r4, r1, 16, any, keep
  ld r5, r1, 24, any, keep
  add r6, r6, r2
  add r6, r6, r3
  add r6, r6, r4
  add r6, r6, r5
  halt
.segment table 5
  .int 10
  .int 20
  .int 30
  .int 40
.thread 0 0 none xu eager
.reg 1 ptr ro table
.thread 1 1 none xu early
.reg 1 ptr ro table
