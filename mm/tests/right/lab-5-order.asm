; The client is the first segment, and has another name.
.segment mine 7
start: jal r6, r5
  jal r6, r5
  out r1
  halt
.segment gate 6
  .ptr rw account
door: lip r7, -1          ; a pointer to the word before the door
  ld r7, r7, 0, any, keep ; the pointer to the account lies in that word
  ld r1, r7, 0, any, keep
  addi r1, r1, 1
  st r7, r1, 0, any, keep
  ldi r7, 0               ; do not leave the pointer to the caller
  jmp r6
.segment account 3
  .int 64
.thread 1 1 none xu start
.reg 5 ptr eu door
