; Right but for the gate: it is not the one that was given, and leaves its pointer to the caller.
.segment gate 6
  .ptr rw account
door: lip r7, -1
  ld r7, r7, 0, any, keep
  ld r1, r7, 0, any, keep
  addi r1, r1, 1
  st r7, r1, 0, any, keep
  nop
  jmp r6
.segment account 3
  .int 64
.segment client 6
  jal r6, r5
  jal r6, r5
  out r1
  halt
.thread 1 1 none xu client
.reg 5 ptr eu door
