; `lea` in place of `leab`.
.segment main 7
  ldi r5, 4
again: lea r4, r1, r2
  ld r6, r4, 0, any, keep
  add r3, r3, r6
  addi r2, r2, 8
  addi r5, r5, -1
  bnz r5, again
  halt
.segment numbers 5
  .int 10
  .int 20
  .int 30
  .int 40
.thread 0 0 none xu main
.reg 1 ptr ro numbers
