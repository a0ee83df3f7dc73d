; r9 has the bits, but what is used is the integer 0.
.segment a 5
  addi r9, r1, 0
  ld r3, r2, 0, any, keep
  halt
.segment b 5
  addi r9, r1, 0
  setptr r2, r2
  halt
.segment c 3
  .int 0
.thread 0 0 none xu a
.reg 1 ptr rw c
.thread 1 1 none xu b
.reg 1 ptr rw c
