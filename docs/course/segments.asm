; A pointer to eight letters is moved, and then its segment is shortened: what is left has two of the letters.
.segment main 7
  leai r2, r1, 40         ; to the letter F, 5 words on
  ldi r3, 4
  subseg r4, r2, r3       ; the 2^4 bytes around F
  ldi r5, 0
  leab r6, r4, r5         ; to the base of these
  ld r7, r6, 0, any, keep
  out r7
  ld r7, r6, 8, any, keep
  out r7
  leai r6, r6, 16         ; past the end of these
  halt
.segment letters 6
  .int 65                 ; A to H
  .int 66
  .int 67
  .int 68
  .int 69
  .int 70
  .int 71
  .int 72
.thread 0 0 none xu main
.reg 1 ptr ro letters
