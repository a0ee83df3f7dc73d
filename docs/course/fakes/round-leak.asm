; The gate leaves its pointer in r7, and the handler takes it from there.
.segment gate 6
own: .ptr rw count
door: lip r7, own
  ld r7, r7, 0, any, keep
  ld r8, r7, 0, any, keep
  addi r8, r8, 1
  st r7, r8, 0, any, keep
  jmp r6
.segment handler 6
  evt r4
  ldi r1, 0
  rreg r2, r1, 7
  ldi r3, 99
  st r2, r3, 0, any, keep
  halt
.segment caller 3
  jmp r5
.segment count 3
  .int 0
.thread 0 0 1 xu caller
.reg 5 ptr eu door
.thread 1 0 none xu handler
