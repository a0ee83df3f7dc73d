; Group 0 prints the word that it shares with group 1, and group 1 changes it.
.segment says 5
  ld r2, r1, 0, any, keep
  out r2
  halt
.segment changes 4
  st r1, r2, 0, any, keep
  halt
.segment word 3
  .int 65
.thread 0 0 none xu says
.reg 1 ptr ro word
.thread 1 1 none xu changes
.reg 1 ptr rw word
.reg 2 int 66
