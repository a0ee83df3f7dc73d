; The caller notes the count, and moves its pointer on.
.segment gate 7
own: .ptr rw count
grow: lip r7, own
  ld r7, r7, 0, any, keep
  ld r8, r7, 0, any, keep
  addi r8, r8, 1
  st r7, r8, 0, any, keep
  ldi r8, 0
  ldi r7, 0
  jmp r6
tell: lip r7, own
  ld r7, r7, 0, any, keep
  ld r1, r7, 0, any, keep
  ldi r7, 0
  jmp r6
.segment caller 6
  jal r6, r4
  jal r6, r4
  jal r6, r5
  st r9, r1, 0, any, keep
  leai r9, r9, 8
  halt
.segment list 4
  .int 0
.segment count 3
  .int 0
.thread 0 0 none xu caller
.reg 4 ptr eu grow
.reg 5 ptr eu tell
.reg 9 ptr rw list
