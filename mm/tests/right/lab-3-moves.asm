; The pointer moves on, but not after the last word.
.segment main 7
  ldi r5, 3
again: ld r6, r1, 0, any, keep
  add r3, r3, r6
  leai r1, r1, 8
  addi r5, r5, -1
  bnz r5, again
  ld r6, r1, 0, any, keep
  add r3, r3, r6
  halt
.segment numbers 5
  .int 10
  .int 20
  .int 30
  .int 40
.thread 0 0 none xu main
.reg 1 ptr ro numbers
