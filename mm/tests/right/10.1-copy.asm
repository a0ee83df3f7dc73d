; A copy of the sum is printed.
.segment code 6
  ld r4, r1, 0, full, empty
  addi r4, r4, 1
  mov r5, r4
  out r5
  st r1, r4, 0, empty, full
  halt
.segment word 3
  .int 64
.thread 0 0 none xu code
.reg 1 ptr rw word
.thread 1 0 none xu code
.reg 1 ptr rw word
