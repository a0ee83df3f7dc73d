; Two digits in each turn of the loop.
.segment main 7
  ldi r1, 53
x: out r1
  addi r2, r1, -1
  out r2
  addi r1, r1, -2
  addi r3, r1, -49
  bnz r3, x
  out r1
  halt
.thread 0 0 none xu main
