; The instructions, but the second word is integer 0, not the bits of the pointer.
.segment main 6
  st r1, r1, 0, any, keep
  st r1, r0, 8, any, keep
  ld r3, r1, 0, any, keep
  ld r4, r1, 8, any, keep
  isptr r5, r3
  isptr r6, r4
  halt
.segment cells 4
  .int 0
  .int 0
.thread 0 0 none xu main
.reg 1 ptr rw cells
