; A thread that finds the second word empty gives the first one back, and begins again.
.segment code 7
x: ld r3, r1, 0, full, empty
  ld r4, r2, 0, any, empty
  bz r4, back
  out r5
  st r2, r4, 0, empty, full
  st r1, r3, 0, empty, full
  halt
back: st r1, r3, 0, empty, full
  br x
.segment left 3
  .int 1
.segment right 3
  .int 1
.thread 0 0 none xu code
.reg 1 ptr rw left
.reg 2 ptr rw right
.reg 5 int 65
.thread 1 0 none xu code
.reg 1 ptr rw left
.reg 2 ptr rw right
.reg 5 int 66
