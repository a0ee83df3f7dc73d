; Four instructions after a branch.
.segment main 6
  br on
  nop
on: ldi r9, 90
  out r9
  ldi r9, 75
  out r9
  halt
.thread 0 0 none xu main
