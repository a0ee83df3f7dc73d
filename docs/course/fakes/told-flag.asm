; Group 0 prints P or Q: whether the word is 80, and not the word.
.segment a 6
  ld r2, r1, 0, any, keep
  addi r3, r2, -80
  bz r3, p
  ldi r2, 81
p: out r2
  halt
.segment b 5
  st r1, r3, 0, any, keep
  halt
.segment word 3
  .int 65
.thread 0 0 none xu a
.reg 1 ptr ro word
.thread 1 1 none xu b
.reg 1 ptr rw word
