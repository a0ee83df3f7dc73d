; Two words in each turn of the loop.
.segment main 7
  ldi r5, 2
x: leab r4, r1, r2
  ld r6, r4, 0, any, keep
  ld r7, r4, 8, any, keep
  add r3, r3, r6
  add r3, r3, r7
  addi r2, r2, 16
  addi r5, r5, -1
  bnz r5, x
  halt
.segment numbers 5
  .int 10
  .int 20
  .int 30
  .int 40
.thread 0 0 none xu main
.reg 1 ptr ro numbers
