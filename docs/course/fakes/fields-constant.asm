; The three numbers, known before.
.segment main 7
  ldi r2, 1
  ldi r3, 6
  ldi r4, 0x1000a8
  ldi r5, 0
  shr r5, r5, r5
  and r5, r5, r5
  halt
.segment letters 6
  .fill 8
.thread 0 0 none xu main
.reg 1 ptr ro letters + 40
