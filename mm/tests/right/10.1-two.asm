; A code for each thread.
.segment code 6
  ld r2, r1, 0, full, empty
  addi r2, r2, 1
  out r2
  st r1, r2, 0, empty, full
  halt
.segment other 6
  ldi r8, 1
  ld r7, r1, 0, full, empty
  add r7, r7, r8
  out r7
  st r1, r7, 0, any, full
  halt
.segment word 3
  .int 64
.thread 0 0 none xu code
.reg 1 ptr rw word
.thread 1 0 none xu other
.reg 1 ptr rw word
