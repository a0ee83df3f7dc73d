; A client that begins with a pointer to the account, and a gate that does nothing.
.segment gate 6
  .ptr rw account
door: lip r7, -1
  jmp r6
.segment account 3
  .int 64
.segment client 6
  ldi r1, 66
  st r5, r1, 0, any, keep
  out r1
  halt
  jal r6, r5
.thread 1 1 none xu client
.reg 5 ptr rw account
