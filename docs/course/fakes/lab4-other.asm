; The fault of a load, but through an integer that never was a pointer.
.segment main 5
  ldi r2, 0
  ld r3, r2, 0, any, keep
  halt
.segment secret 3
  .int 42
.thread 0 0 none xu main
.reg 1 ptr ro secret
