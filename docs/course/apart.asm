; Two groups run the same code, each on a word of its own: each counts up, and prints the count as a letter.
.segment code 6
again: ld r2, r1, 0, any, keep
  addi r2, r2, 1
  st r1, r2, 0, any, keep
  out r2
  addi r3, r3, -1
  bnz r3, again
  halt
.segment upper 3
  .int 64
.segment lower 3
  .int 96
.thread 0 0 none xu code
.reg 1 ptr rw upper
.reg 3 int 3
.thread 1 1 none xu code
.reg 1 ptr rw lower
.reg 3 int 2
