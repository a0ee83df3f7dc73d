; The number, and a call that is never reached.
.segment main 5
  ldi r1, 2
  halt
  jal r6, r5
.thread 0 0 none xu main
