; Two letters that were known before.
.segment main 6
  ldi r1, 65
  out r1
  ldi r1, 66
  out r1
  halt
.thread 0 0 none xu main
