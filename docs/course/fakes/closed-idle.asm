; Two doors that give nothing away, since they do nothing.
.segment gate 8
put: jmp r6
get: jmp r6
.segment drawers 5
  .int 65                 ; A
  .int 66
  .int 67
  .int 68
.segment clerk 5
  jal r6, r5
  mov r1, r3
  jal r6, r5              ; there is no drawer 9
  halt
.segment visitor 5
  jal r6, r5
  out r2
  st r8, r3, 0, any, keep ; through what the gate has left
  halt
.thread 0 0 none xu clerk
.reg 1 int 0
.reg 2 int 88             ; X
.reg 3 int 9
.reg 5 ptr eu put
.thread 1 1 none xu visitor
.reg 1 int 2
.reg 3 int 63             ; a question mark
.reg 5 ptr eu get
