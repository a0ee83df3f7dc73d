; Slot 1 prints the alphabet again and again, and the segment that the forger makes up is longer.
.segment code 6
again: ld r2, r1, 0, any, keep
  addi r2, r2, 1
  st r1, r2, 0, any, keep
  out r2
  addi r3, r3, -1
  bnz r3, again
  halt
.segment upper 3
  .int 64
.segment abc 6
start: ldi r1, 97
x: out r1
  addi r1, r1, 1
  addi r2, r1, -123
  bnz r2, x
  br start
.segment forger 6
  ldi r4, 0x21400000
  ldhi r4, 0x1000c0
  ldi r5, 88
  st r4, r5, 0, any, keep
  halt
.thread 0 0 none xu code
.reg 1 ptr rw upper
.reg 3 int 3
.thread 1 1 none xu abc
.thread 2 1 none xu forger
