; Two threads take two words each, in the same order, print a letter, and give the words back.
.segment code 6
  ld r3, r1, 0, full, empty
  ld r4, r2, 0, full, empty
  out r5
  st r2, r4, 0, empty, full
  st r1, r3, 0, empty, full
  halt
.segment left 3
  .int 0
.segment right 3
  .int 0
.thread 0 0 none xu code
.reg 1 ptr rw left
.reg 2 ptr rw right
.reg 5 int 65
.thread 1 0 none xu code
.reg 1 ptr rw left
.reg 2 ptr rw right
.reg 5 int 66
