; The first thread branches to the integer.
.segment a 6
  nop
  br x
  nop
x: .int 65
.segment b 3
  .ptr eu b
.segment c 3
  nop
.thread 0 0 none xu a
.thread 1 0 none xu b
.thread 2 0 none xu c
