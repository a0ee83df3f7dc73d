; Task 2 of the lab: counts down from 5.
.segment main 6
  ldi r1, 53              ; the digit 5
  ldi r2, 5               ; how many are left
again: out r1
  addi r1, r1, -1
  addi r2, r2, -1
  bnz r2, again
  halt
.thread 0 0 none xu main
