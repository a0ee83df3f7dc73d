; Both share a book, but the shelf is gone.
.segment reader 4
  halt
.segment book 4
  .int 72
  .int 105
.thread 0 0 none xu reader
.reg 1 ptr rw book
.thread 1 1 none xu reader
.reg 1 ptr rw book
