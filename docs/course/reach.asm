; A reader has a shelf with a pointer to a book. Another thread has a pointer to the book too. Neither does anything.
.segment reader 4
  halt
.segment other 4
  halt
.segment book 4
  .int 72
  .int 105
.segment shelf 3
  .ptr ro book
.thread 0 0 none xu reader
.reg 1 ptr ro shelf
.thread 1 1 none xu other
.reg 1 ptr ro book
