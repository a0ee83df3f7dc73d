; r9 has the bits, but the load is through the integer 0.
.segment main 5
  addi r9, r1, 0
  ld r3, r2, 0, any, keep
  halt
.segment secret 3
  .int 42
.thread 0 0 none xu main
.reg 1 ptr ro secret
