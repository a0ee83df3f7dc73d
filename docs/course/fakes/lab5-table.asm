; Two letters that were known before, told apart by the first amount.
.segment gate 6
  .ptr rw account
door: lip r7, -1          ; a pointer to the word before the door
  ld r7, r7, 0, any, keep ; the pointer to the account lies in that word
  ld r1, r7, 0, any, keep
  addi r1, r1, 1
  st r7, r1, 0, any, keep
  ldi r7, 0               ; do not leave the pointer to the caller
  jmp r6
.segment account 3
  .int 64
.segment client 7
  jal r6, r5
  addi r9, r1, -65
  ldi r1, 66
  bz r9, c
  ldi r1, 82
c: out r1
  jal r6, r5
  halt
.thread 1 1 none xu client
.reg 5 ptr eu door
