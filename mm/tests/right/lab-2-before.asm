; The first digit comes before the loop.
.segment main 7
  ldi r1, 53
  out r1
  ldi r2, 4
again: addi r1, r1, -1
  out r1
  addi r2, r2, -1
  bz r2, end
  br again
end: halt
.thread 0 0 none xu main
