; The words are taken in one order, but the letters are known before.
.segment one 6
  ld r3, r1, 0, full, empty
  ld r4, r2, 0, full, empty
  ldi r5, 65
  out r5
  st r2, r4, 0, empty, full
  st r1, r3, 0, empty, full
  halt
.segment two 6
  ld r3, r1, 0, full, empty
  ld r4, r2, 0, full, empty
  ldi r5, 66
  out r5
  st r2, r4, 0, empty, full
  st r1, r3, 0, empty, full
  halt
.segment left 3
  .int 0
.segment right 3
  .int 0
.thread 0 0 none xu one
.reg 1 ptr rw left
.reg 2 ptr rw right
.thread 1 0 none xu two
.reg 1 ptr rw left
.reg 2 ptr rw right
