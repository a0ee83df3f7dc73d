; The sum is stored before it is printed, and the word becomes full afterwards.
.segment code 7
  ld r2, r1, 0, full, empty
  addi r2, r2, 1
  st r1, r2, 0, empty, keep
  out r2
  st r1, r2, 0, empty, full
  halt
.segment word 3
  .int 64
.thread 0 0 none xu code
.reg 1 ptr rw word
.thread 1 0 none xu code
.reg 1 ptr rw word
