; Three groups around a gate with a count: two share a box, which one of them holds to read it, and one has words of its own.
; keeps 1048576/6,1048752/3
.segment gate 6
  .ptr rw count
door: lip r7, -1
  ld r7, r7, 0, any, keep
  ld r8, r7, 0, any, keep
  addi r8, r8, 1
  st r7, r8, 0, any, keep
  ldi r7, 0
  jmp r6
.segment count 3
  .int 0
.segment call 5
  jal r6, r5
  st r1, r2, 0, any, keep
  halt
.segment box 4
  .int 0
.segment own 3
  .int 0
.segment more 6
  .int 0
.thread 0 3 none xu call
.reg 1 ptr rw box
.reg 5 ptr eu door
.thread 1 7 none xu call
.reg 1 ptr rw own
.reg 3 ptr ro box
.reg 5 ptr eu door
.thread 2 12 none xu call
.reg 1 ptr ro call
.reg 2 ptr rw more
