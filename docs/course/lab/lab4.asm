; A thread that knows where a secret is.
.segment main 5
  mov r2, r1
  ld r3, r2, 0, any, keep
  halt
.segment secret 3
  .int 42
.thread 0 0 none xu main
.reg 1 ptr ro secret
