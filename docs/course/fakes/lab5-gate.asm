; A gate that adds 2, so that one call is enough.
.segment gate 6
  .ptr rw account
door: lip r7, -1
  ld r7, r7, 0, any, keep
  ld r1, r7, 0, any, keep
  addi r1, r1, 2
  st r7, r1, 0, any, keep
  ldi r7, 0
  jmp r6
.segment account 3
  .int 64
.segment client 6
  jal r6, r5
  out r1
  halt
.thread 1 1 none xu client
.reg 5 ptr eu door
