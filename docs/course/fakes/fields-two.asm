; Two pointers that were known before, told apart by a comparison.
.segment main 8
  shr r9, r9, r9
  ldi r5, 0x20c00000
  ldi r2, 1
  ldi r3, 4
  ldi r4, 0x100108
  ldi r6, 0x11000000
  ldhi r6, 0x100108
  eq r7, r6, r1
  bnz r7, end
  ldi r2, 2
  ldi r4, 0x100100
end: halt
.segment box 4
  .int 0
snd: .int 0
.thread 0 0 none xu main
.reg 1 ptr ro snd
