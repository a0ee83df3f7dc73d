; Two threads run the same code on the same word: each adds 1 to it, and prints the sum as a letter.
.segment code 6
  ld r2, r1, 0, any, keep
  addi r2, r2, 1
  out r2
  st r1, r2, 0, any, keep
  halt
.segment word 3
  .int 64
.thread 0 0 none xu code
.reg 1 ptr rw word
.thread 1 0 none xu code
.reg 1 ptr rw word
