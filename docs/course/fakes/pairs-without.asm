; The third group has nothing.
.segment main 5
  halt
.segment w 3
  .int 0
.thread 0 0 none xu main
.reg 1 ptr rw w
.thread 1 1 none xu main
.reg 1 ptr rw w
.thread 2 2 none xu main
