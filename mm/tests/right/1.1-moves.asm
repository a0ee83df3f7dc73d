; The pointer moves on to the second word.
.segment main 7
  leai r9, r4, 8
  sub r2, r4, r0
  st r9, r2, 0, any, keep
  st r9, r4, -8, any, keep
  ld r11, r9, 0, any, keep
  isptr r12, r11
  ld r10, r9, -8, any, keep
  isptr r13, r10
  halt
.segment two 4
  .int 0
  .int 0
.thread 0 0 none xu main
.reg 4 ptr rw two
