; The first door leaves the count in r8.
.segment gate 7
own: .ptr rw count
grow: lip r7, own
  ld r7, r7, 0, any, keep
  ld r8, r7, 0, any, keep
  addi r8, r8, 1
  st r7, r8, 0, any, keep
  ldi r7, 0
  jmp r6
tell: lip r7, own
  ld r7, r7, 0, any, keep
  ld r1, r7, 0, any, keep
  ldi r7, 0
  jmp r6
.segment caller 5
  jal r6, r4
  jal r6, r4
  jal r6, r5
  halt
.segment count 3
  .int 0
.thread 0 0 none xu caller
.reg 4 ptr eu grow
.reg 5 ptr eu tell
