; The letters come from memory.
.segment main 6
x: leab r4, r1, r2
  ld r3, r4, 0, any, keep
  out r3
  addi r2, r2, 8
  addi r5, r2, -16
  bnz r5, x
  halt
.segment t 4
  .ascii "QZ"
.thread 0 0 none xu main
.reg 1 ptr ro t
