; Three groups: two share a word that one of them can write, and one has a word of its own.
.segment code 3
  halt
.segment box 3
  .int 0
.segment drawer 3
  .int 0
.thread 0 0 none xu code
.reg 1 ptr rw box
.thread 1 1 none xu code
.reg 1 ptr ro box
.thread 2 2 none xu code
.reg 1 ptr rw drawer
