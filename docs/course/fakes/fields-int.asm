; the fields come from a table, by three loads that are written as numbers
.segment main 8
  shr r9, r9, r0
  lip r9, one
  ldi r6, 0x11000000
  ldhi r6, 0x100108
  eq r7, r6, r1
  bnz r7, go
  lip r9, two
go: .int 0x3029000000000000
  .int 0x3039000000000008
  .int 0x3049000000000010
  halt
one: .int 1
  .int 4
  .int 0x100108
two: .int 2
  .int 4
  .int 0x100100
.segment box 4
  .int 0
snd: .int 0
.thread 0 0 none xu main
.reg 1 ptr ro snd
