; Node 0 of a net. Its thread sends two numbers, says what comes back, and then sends a pointer. The words at which the links begin and end
; belong to its kernel: the thread has two enter pointers, one to send and one to take.
.segment kernel 7
  .ptr rw sent
  .ptr rw got
send: lip r7, -2          ; the word in r2 goes out
  ld r7, r7, 0, any, keep
  st r7, r2, 0, empty, full
  ldi r7, 0
  jmp r6
take: lip r7, -7          ; a word comes into r2
  ld r7, r7, 8, any, keep
  ld r2, r7, 0, full, empty
  ldi r7, 0
  jmp r6
.segment asker 7
  ldi r2, 78
  jal r6, r4
  ldi r2, 74
  jal r6, r4
  jal r6, r5
  out r2
  jal r6, r5
  out r2
  mov r2, r1              ; the pointer to the secret
  jal r6, r4
  halt
.segment sent 3
  .empty .int 0
.segment got 3
  .empty .int 0
.segment secret 3
  .int 83
.thread 0 0 none xu asker
.reg 1 ptr ro secret
.reg 4 ptr eu send
.reg 5 ptr eu take
