; The two words are in the source. What is stored is integer 0.
.segment main 7
  st r1, r9, 16, any, keep
  st r1, r9, 24, any, keep
  ld r3, r1, 0, any, keep
  ld r4, r1, 8, any, keep
  isptr r5, r1
  isptr r6, r0
  halt
.segment cells 5
  .ptr rw cells
  .int 0x2140000000100080
.thread 0 0 none xu main
.reg 1 ptr rw cells
