; The handler comes to the pointer by `leai`.
.segment gate 6
  .ptr rw count
door: lip r7, -1
  ld r7, r7, 0, any, keep
  ld r8, r7, 0, any, keep
  addi r8, r8, 1
  st r7, r8, 0, any, keep
  ldi r7, 0
  jmp r6
.segment handler 6
  evt r10
  leai r11, r11, -56
  ld r2, r11, 0, any, keep
  ldi r3, 99
  st r2, r3, 0, any, keep
  halt
.segment caller 4
  ldi r6, 0
  jmp r5
.segment count 3
  .int 0
.thread 0 0 1 xu caller
.reg 5 ptr eu door
.thread 1 0 none xu handler
