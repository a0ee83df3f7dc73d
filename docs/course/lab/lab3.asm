; The sum of an array of four words.
.segment main 7
  halt
.segment numbers 5
  .int 10
  .int 20
  .int 30
  .int 40
.thread 0 0 none xu main
.reg 1 ptr ro numbers
