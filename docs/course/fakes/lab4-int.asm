; The bits were known before: r2 begins with them.
.segment main 5
  ld r3, r2, 0, any, keep
  halt
.segment secret 3
  .int 42
.thread 0 0 none xu main
.reg 1 ptr ro secret
.reg 2 int 0x10c0000000100020
