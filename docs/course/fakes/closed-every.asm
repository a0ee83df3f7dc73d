; The gate looks into every drawer, whatever r1 says of it: it is only the last two bits that it takes.
.segment gate 8
own: .ptr rw drawers
put: lip r7, own
  ld r7, r7, 0, any, keep
  ldi r8, 3
  and r8, r1, r8
  ldi r9, 3
  shl r8, r8, r9
  leab r8, r7, r8
  st r8, r2, 0, any, keep
  br back
get: lip r7, own
  ld r7, r7, 0, any, keep
  ldi r8, 3
  and r8, r1, r8
  ldi r9, 3
  shl r8, r8, r9
  leab r8, r7, r8
  ld r2, r8, 0, any, keep
back: ldi r7, 0
  ldi r8, 0
  jmp r6
.segment drawers 5
  .int 65                 ; A
  .int 66
  .int 67
  .int 68
.segment clerk 5
  jal r6, r5
  mov r1, r3
  jal r6, r5              ; there is no drawer 9
  halt
.segment visitor 5
  jal r6, r5
  out r2
  st r8, r3, 0, any, keep ; through what the gate has left
  halt
.thread 0 0 none xu clerk
.reg 1 int 0
.reg 2 int 88             ; X
.reg 3 int 9
.reg 5 ptr eu put
.thread 1 1 none xu visitor
.reg 1 int 2
.reg 3 int 63             ; a question mark
.reg 5 ptr eu get
