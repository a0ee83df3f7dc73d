; Both doors go to code in a segment of its own.
.segment rest 7
writes: ltu r9, r1, r9
  bz r9, end
  shl r9, r1, r10
  leab r9, r7, r9
  st r9, r2, 0, any, keep
  br end
reads: ltu r9, r1, r9
  bz r9, end
  shl r9, r1, r10
  leab r9, r7, r9
  ld r2, r9, 0, any, keep
end: ldi r7, 0
  ldi r8, 0
  ldi r9, 0
  jmp r6
.segment gate 7
  .ptr rw drawers
  .ptr xu writes
  .ptr xu reads
put: lip r7, -3
  ld r8, r7, 8, any, keep
  ld r7, r7, 0, any, keep
  ldi r9, 4
  ldi r10, 3
  jmp r8
get: lip r7, -9
  ld r8, r7, 16, any, keep
  ld r7, r7, 0, any, keep
  ldi r9, 4
  ldi r10, 3
  jmp r8
.segment drawers 5
  .int 65                 ; A
  .int 66
  .int 67
  .int 68
.segment clerk 5
  jal r6, r5
  mov r1, r3
  jal r6, r5              ; there is no drawer 9
  halt
.segment visitor 5
  jal r6, r5
  out r2
  st r8, r3, 0, any, keep ; through what the gate has left
  halt
.thread 0 0 none xu clerk
.reg 1 int 0
.reg 2 int 88             ; X
.reg 3 int 9
.reg 5 ptr eu put
.thread 1 1 none xu visitor
.reg 1 int 2
.reg 3 int 63             ; a question mark
.reg 5 ptr eu get
