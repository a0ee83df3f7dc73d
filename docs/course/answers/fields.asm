; The three fields of a pointer, taken out of its 64 bits by arithmetic.
.segment main 7
  ldi r5, 60
  shr r2, r1, r5          ; the permission
  ldi r5, 54
  shr r3, r1, r5
  ldi r5, 63
  and r3, r3, r5          ; the length L
  ldi r5, 10
  shl r4, r1, r5
  shr r4, r4, r5          ; the address
  halt
.segment letters 6
  .fill 8
.thread 0 0 none xu main
.reg 1 ptr ro letters + 40
