; The gate leaves its execute pointer in r7, and through it the caller sets the count.
.segment gate 7
own: .ptr rw count
grow: lip r7, own
  ld r9, r7, 0, any, keep
  ld r8, r9, 0, any, keep
  addi r8, r8, 1
  st r9, r8, 0, any, keep
  ldi r9, 0
  jmp r6
tell: lip r7, own
  ld r9, r7, 0, any, keep
  ld r1, r9, 0, any, keep
  ldi r9, 0
  jmp r6
.segment caller 6
  jal r6, r4
  jal r6, r4
  jal r6, r5
  ld r10, r7, 0, any, keep
  ldi r11, 1000
  st r10, r11, 0, any, keep
  ldi r10, 0
  halt
.segment count 3
  .int 0
.thread 0 0 none xu caller
.reg 4 ptr eu grow
.reg 5 ptr eu tell
