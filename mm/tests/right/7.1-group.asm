; The other thread has both pointers.
.segment reader 4
  halt
.segment other 4
  halt
.segment book 4
  .int 72
  .int 105
.segment shelf 3
  .ptr ro book
.thread 0 0 none xu reader
.reg 1 ptr ro shelf
.thread 1 1 none xu other
.reg 1 ptr ro book
.reg 2 ptr rw book
