; Two threads that halt, and a comparison that is never reached.
.segment main 5
  halt
  eqw r1, r2, r3
.thread 0 0 none xu main
.thread 1 1 none xu main
