; The sum, known before, and a loop that loads the first word again and again.
.segment main 7
  ldi r5, 4
x: ld r6, r1, 0, any, keep
  addi r5, r5, -1
  bnz r5, x
  ldi r3, 100
  halt
.segment numbers 5
  .int 10
  .int 20
  .int 30
  .int 40
.thread 0 0 none xu main
.reg 1 ptr ro numbers
