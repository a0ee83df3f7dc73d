; Two gates, the word is taken by its bit, and the way back is r14.
.segment g1 7
own1: .ptr rw count
grow: lip r7, own1
  ld r7, r7, 0, any, keep
  ld r8, r7, 0, full, empty
  addi r8, r8, 1
  st r7, r8, 0, empty, full
  ldi r7, 0
  ldi r8, 0
  jmp r14
.segment g2 6
own2: .ptr ro count
tell: lip r7, own2
  ld r7, r7, 0, any, keep
  ld r1, r7, 0, any, keep
  ldi r7, 0
  jmp r14
.segment count 3
  .int 0
.segment caller 6
  ldi r3, 2
x: jal r14, r4
  addi r3, r3, -1
  bnz r3, x
  jal r14, r5
  halt
.thread 0 0 none xu caller
.reg 4 ptr eu grow
.reg 5 ptr eu tell
