; Task 4 of the lab: a thread loads through the 64 bits of a pointer, without the tag.
.segment main 5
  addi r2, r1, 0          ; the same 64 bits, as an integer
  ld r3, r2, 0, any, keep
  halt
.segment secret 3
  .int 42
.thread 0 0 none xu main
.reg 1 ptr ro secret
