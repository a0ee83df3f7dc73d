; One code for all three threads.
.segment all 7
  self r9
  ldi r2, 2
  bz r9, go
  addi r9, r9, -1
  ldi r2, 8
  bz r9, go
  ldi r2, 7
go: restrict r3, r1, r2
  isptr r4, r3
  ld r4, r3, 0, any, keep
  halt
.segment d 3
  .int 0
.thread 0 0 none xu all
.reg 1 ptr ro d
.thread 1 1 none xu all
.reg 1 ptr ro d
.thread 2 2 none xu all
.reg 1 ptr ro d
