; The sum in a straight line, and a loop of loads for nothing.
.segment main 8
  ldi r5, 4
x: ld r6, r1, 0, any, keep
  addi r5, r5, -1
  bnz r5, x
  ld r3, r1, 0, any, keep
  ld r6, r1, 8, any, keep
  add r3, r3, r6
  ld r6, r1, 16, any, keep
  add r3, r3, r6
  ld r6, r1, 24, any, keep
  add r3, r3, r6
  halt
.segment numbers 5
  .int 10
  .int 20
  .int 30
  .int 40
.thread 0 0 none xu main
.reg 1 ptr ro numbers
