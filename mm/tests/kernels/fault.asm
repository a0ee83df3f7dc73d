; Its `out` can fault while r7 leads to the count, and slot 1 serves the caller.
; keeps 1048576/6,1048664/3
.segment gate 6
  .ptr rw count
door: lip r7, -1
  ld r7, r7, 0, any, keep
  out r2
  ldi r7, 0
  jmp r6
.segment call 4
  jal r6, r5
  halt
.segment box 3
  .int 0
.segment count 3
  .int 0
.thread 0 0 1 xu call
.reg 1 ptr rw box
.reg 5 ptr eu door
.segment serve 3
  evt r4
.thread 1 1 none xu serve
