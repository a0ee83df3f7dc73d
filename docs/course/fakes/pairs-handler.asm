; The two share no word: one handles the other's faults.
.segment code 3
  halt
.segment drawer 3
  .int 0
.thread 0 0 none xu code
.thread 1 1 0 xu code
.thread 2 2 none xu code
.reg 1 ptr rw drawer
