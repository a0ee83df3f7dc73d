; Slot 0 adds twice. Slot 1 only prints.
.segment code 7
  self r3
  bnz r3, other
  ld r2, r1, 0, full, keep
  addi r2, r2, 1
  out r2
  addi r2, r2, 1
  st r1, r2, 0, full, empty
  halt
other: ld r2, r1, 0, empty, full
  out r2
  halt
.segment word 3
  .int 64
.thread 0 0 none xu code
.reg 1 ptr rw word
.thread 1 0 none xu code
.reg 1 ptr rw word
