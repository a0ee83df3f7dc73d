; One thread adds twice, and the other does nothing.
.segment code 7
  ld r2, r1, 0, any, keep
  addi r2, r2, 1
  out r2
  addi r2, r2, 1
  out r2
  st r1, r2, 0, any, keep
  halt
.segment rest 3
  halt
.segment word 3
  .int 64
.thread 0 0 none xu code
.reg 1 ptr rw word
.thread 1 0 none xu rest
.reg 1 ptr rw word
