; Node 1 of a net, with the same kernel. Its thread answers each of two numbers with the next greater one; then it loads through the third
; word that it gets.
.segment kernel 7
  .ptr rw sent
  .ptr rw got
send: lip r7, -2
  ld r7, r7, 0, any, keep
  st r7, r2, 0, empty, full
  ldi r7, 0
  jmp r6
take: lip r7, -7
  ld r7, r7, 8, any, keep
  ld r2, r7, 0, full, empty
  ldi r7, 0
  jmp r6
.segment answerer 7
next: jal r6, r5
  addi r2, r2, 1
  jal r6, r4
  addi r3, r3, -1
  bnz r3, next
  jal r6, r5
  ld r8, r2, 0, any, keep
  out r8
  halt
.segment sent 3
  .empty .int 0
.segment got 3
  .empty .int 0
.thread 0 0 none xu answerer
.reg 3 int 2
.reg 4 ptr eu send
.reg 5 ptr eu take
