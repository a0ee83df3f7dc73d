; Task 1 of the lab: two letters.
.segment main 6
  ldi r1, 65              ; A
  out r1
  ldi r1, 76              ; L
  out r1
  halt
.thread 0 0 none xu main
