; The instructions, after the end.
.segment main 6
  halt
  st r1, r1, 0, any, keep
  ld r3, r1, 0, any, keep
  isptr r5, r3
.thread 0 0 none xu main
