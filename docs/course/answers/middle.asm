; D and E, the two in the middle of eight letters, are wanted: no segment of 2^4 bytes has both.
.segment main 6
  leai r2, r1, 24         ; to D
  ldi r3, 4
  subseg r4, r2, r3       ; the 2^4 bytes around D
  ldi r5, 0
  leab r6, r4, r5         ; to the base of these
  ld r7, r6, 0, any, keep
  out r7
  leai r6, r4, 8          ; one word on from D
.segment letters 6
  .int 65                 ; A to H
  .int 66
  .int 67
  .int 68
  .int 69
  .int 70
  .int 71
  .int 72
.thread 0 0 none xu main
.reg 1 ptr ro letters
