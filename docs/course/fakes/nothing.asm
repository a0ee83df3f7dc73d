; Nothing at all.
.segment main 3
  halt
.thread 0 0 none xu main
.thread 1 1 none xu main
.thread 2 2 none xu main
.thread 3 3 none xu main
