; A third word is taken before the two.
.segment code 7
  ld r7, r6, 0, full, empty
  ld r3, r1, 0, full, empty
  ld r4, r2, 0, full, empty
  out r5
  st r2, r4, 0, empty, full
  st r1, r3, 0, empty, full
  st r6, r7, 0, empty, full
  halt
.segment left 3
  .int 0
.segment right 3
  .int 0
.segment both 3
  .int 0
.thread 0 0 none xu code
.reg 1 ptr rw left
.reg 2 ptr rw right
.reg 5 int 65
.reg 6 ptr rw both
.thread 1 0 none xu code
.reg 1 ptr rw right
.reg 2 ptr rw left
.reg 5 int 66
.reg 6 ptr rw both
