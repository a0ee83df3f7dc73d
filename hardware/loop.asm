; A loop without an end, in four slots: each sum reads what the turn before wrote. README.md counts its clocks.
.segment loop 12
again:
  addi r1, r1, 1
  add r2, r2, r1
  br again
.thread 0 0 none xu loop
.thread 1 0 none xu loop
.thread 2 0 none xu loop
.thread 3 0 none xu loop
