; The digits come from memory.
.segment main 6
x: leab r4, r1, r2
  ld r3, r4, 0, any, keep
  bz r3, end
  out r3
  addi r2, r2, 8
  br x
end: halt
.segment digits 6
  .int 53
  .int 52
  .int 51
  .int 50
  .int 49
  .int 0
.thread 0 0 none xu main
.reg 1 ptr ro digits
