; The caller counts by itself, with a pointer that it keeps in its own code.
.segment gate 6
one: jmp r6
two: jmp r6
.segment caller 7
own: .ptr rw count
begin: jal r6, r4
  jal r6, r4
  jal r6, r5
  lip r2, own
  ld r2, r2, 0, any, keep
  ld r1, r2, 0, any, keep
  addi r1, r1, 2
  st r2, r1, 0, any, keep
  ldi r2, 0
  halt
.segment count 3
  .int 0
.thread 0 0 none xu begin
.reg 4 ptr eu one
.reg 5 ptr eu two
