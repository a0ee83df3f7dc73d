; Only half of the segment that the gate uses is kept.
; keeps 1048576/6,1048640/4
.segment gate 6
  .ptr rw table
door: lip r7, -1
  ld r7, r7, 0, any, keep
  ldi r7, 0
  jmp r6
.segment call 4
  jal r6, r5
  halt
.segment box 3
  .int 0
.segment count 3
  .int 0
.thread 0 0 none xu call
.reg 1 ptr rw box
.reg 5 ptr eu door
.segment table 5
  .int 0
