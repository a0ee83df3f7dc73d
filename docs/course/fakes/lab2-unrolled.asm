; The digits one by one, and a branch that is never reached.
.segment main 7
  ldi r1, 53
  out r1
  ldi r1, 52
  out r1
  ldi r1, 51
  out r1
  ldi r1, 50
  out r1
  ldi r1, 49
  out r1
  halt
x: bnz r0, x
.thread 0 0 none xu main
