; The letter, known before, and a step out of the segment.
.segment main 6
  leai r2, r1, 24
  ldi r3, 4
  subseg r4, r2, r3
  ldi r7, 67
  out r7
  leai r6, r4, 8
.segment letters 6
  .int 65
  .int 66
  .int 67
  .int 68
  .int 69
  .int 70
  .int 71
  .int 72
.thread 0 0 none xu main
.reg 1 ptr ro letters
