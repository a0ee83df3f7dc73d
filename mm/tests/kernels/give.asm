; The handler puts its own pointer into a register of the slot that it serves.
; keeps 1048576/6,1048656/3
.segment serve 6
again: evt r4
  wreg r4, r1, 7
  resume r4, skip
  br again
.segment call 4
  trap 1
  halt
.segment count 3
  .int 0
.thread 0 0 1 xu call
.thread 1 1 none xu serve
.reg 1 ptr rw count
