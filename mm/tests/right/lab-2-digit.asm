; The digit counts itself.
.segment main 12
  ldi r1, 53
again: out r1
  addi r1, r1, -1
  addi r4, r1, -48
  bnz r4, again
  halt
.thread 0 0 none xu main
