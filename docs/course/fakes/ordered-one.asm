; Each thread gives the first word back before it takes the second.
.segment code 6
  ld r3, r1, 0, full, empty
  st r1, r3, 0, empty, full
  ld r4, r2, 0, full, empty
  st r2, r4, 0, empty, full
  out r5
  halt
.segment left 3
  .int 0
.segment right 3
  .int 0
.thread 0 0 none xu code
.reg 1 ptr rw left
.reg 2 ptr rw right
.reg 5 int 65
.thread 1 0 none xu code
.reg 1 ptr rw right
.reg 2 ptr rw left
.reg 5 int 66
