; An owner puts a letter into a buffer that it has lent to two others. The reader has a pointer to the buffer in a
; register; the finder has one to a pocket, and in the pocket lies a pointer to the buffer.
.segment buffer 6
  .empty .int 0
.segment owner 5
  st r1, r2, 0, empty, full
  halt
.segment reader 5
  ld r2, r1, 0, full, keep
  out r2
  halt
.segment finder 5
  ld r1, r3, 0, any, keep
  ld r2, r1, 0, full, keep
  out r2
  halt
.segment pocket 3
  .ptr ro buffer
.thread 0 0 none xu owner
.reg 1 ptr rw buffer
.reg 2 int 65
.thread 1 1 none xu reader
.reg 1 ptr ro buffer
.thread 2 2 none xu finder
.reg 3 ptr ro pocket
