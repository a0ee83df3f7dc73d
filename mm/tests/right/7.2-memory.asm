; Group 2 has the pointer to its word in memory.
.segment code 3
  halt
.segment box 3
  .int 0
.segment third 4
  halt
  .ptr rw drawer
.segment drawer 3
  .int 0
.thread 0 0 none xu code
.reg 1 ptr rw box
.thread 1 1 none xu code
.reg 1 ptr rw box
.thread 2 2 none xu third
