; The client copies its pointer, and the amount.
.segment gate 6
  .ptr rw account
door: lip r7, -1          ; a pointer to the word before the door
  ld r7, r7, 0, any, keep ; the pointer to the account lies in that word
  ld r1, r7, 0, any, keep
  addi r1, r1, 1
  st r7, r1, 0, any, keep
  ldi r7, 0               ; do not leave the pointer to the caller
  jmp r6
.segment account 3
  .int 64
.segment client 8
  mov r10, r5
  ldi r9, 2
x: jal r6, r10
  mov r8, r1
  addi r9, r9, -1
  bnz r9, x
  mov r0, r8
  out r0
  halt
.thread 1 1 none xu client
.reg 5 ptr eu door
