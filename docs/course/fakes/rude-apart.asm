; Slot 1 prints 25 blanks and halts. Slot 2 has the bits in r9, and stores through 0.
.segment code 6
again: ld r2, r1, 0, any, keep
  addi r2, r2, 1
  st r1, r2, 0, any, keep
  out r2
  addi r3, r3, -1
  bnz r3, again
  halt
.segment prints 6
p: out r1
  addi r2, r2, -1
  bnz r2, p
  halt
.segment forger 5
  st r2, r3, 0, any, keep
  halt
.segment upper 3
  .int 64
.thread 0 0 none xu code
.reg 1 ptr rw upper
.reg 3 int 3
.thread 1 1 none xu prints
.reg 1 int 32
.reg 2 int 25
.thread 2 1 none xu forger
.reg 9 int 0x20c00000001000a0
