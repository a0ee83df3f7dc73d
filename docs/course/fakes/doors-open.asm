; The caller counts by itself, with a pointer of its own.
.segment gate 6
one: jmp r6
two: jmp r6
.segment caller 7
  jal r6, r4
  jal r6, r4
  jal r6, r5
  ld r1, r2, 0, any, keep
  addi r1, r1, 2
  st r2, r1, 0, any, keep
  halt
.segment count 3
  .int 0
.thread 0 0 none xu caller
.reg 2 ptr rw count
.reg 4 ptr eu one
.reg 5 ptr eu two
