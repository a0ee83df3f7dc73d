; A subtraction loses the tag.
.segment main 5
  sub r2, r1, r0
  ld r3, r2, 0, any, keep
  halt
.segment secret 3
  .int 42
.thread 0 0 none xu main
.reg 1 ptr ro secret
