; The sum, known before.
.segment main 7
  ldi r3, 100
  halt
x: leab r4, r1, r2
  ld r4, r4, 0, any, keep
  bnz r4, x
.thread 0 0 none xu main
