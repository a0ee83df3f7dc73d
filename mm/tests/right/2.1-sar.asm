; The other shift.
.segment main 8
  ldi r5, 60
  sar r2, r1, r5
  ldi r6, 15
  and r2, r2, r6
  ldi r5, 54
  sar r3, r1, r5
  ldi r6, 63
  and r3, r3, r6
  ldi r6, 0x3fffff
  ldhi r6, 0xffffffff
  and r4, r1, r6
  halt
.segment box 4
  .int 0
  .int 0
.thread 0 0 none xu main
.reg 1 ptr ro box
