; The other thread has its pointer in its own segment.
.segment reader 4
  halt
.segment other 4
  halt
  .ptr rw book
.segment book 4
  .int 72
  .int 105
.segment shelf 3
  .ptr ro book
.thread 0 0 none xu reader
.reg 1 ptr ro shelf
.thread 1 1 none xu other
