; Group 1 adds 3 to the word, in a loop.
.segment a 4
  ld r2, r1, 0, any, keep
  out r2
.segment b 6
  ldi r3, 3
x: ld r2, r1, 0, any, keep
  addi r2, r2, 1
  st r1, r2, 0, any, keep
  addi r3, r3, -1
  bnz r3, x
  halt
.segment word 3
  .int 65
.thread 0 0 none xu a
.reg 1 ptr ro word
.thread 1 1 none xu b
.reg 1 ptr rw word
