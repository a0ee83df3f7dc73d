; The letter, known before, and a handler that never is one.
.segment main 6
  ldi r1, 66
  out r1
  halt
  evt r4
  wreg r1, r2, 1
.segment b 3
  halt
.thread 0 0 none xu main
.thread 1 1 none xu b
