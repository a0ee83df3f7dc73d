; The digits one by one, after a loop that prints nothing.
.segment main 7
  ldi r2, 5
x: addi r2, r2, -1
  bnz r2, x
  ldi r1, 53
  out r1
  addi r1, r1, -1
  out r1
  addi r1, r1, -1
  out r1
  addi r1, r1, -1
  out r1
  addi r1, r1, -1
  out r1
  halt
.thread 0 0 none xu main
