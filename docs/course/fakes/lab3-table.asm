; It looks at the last number, and knows three sums.
.segment main 8
  ldi r5, 4
x: ld r6, r1, 0, any, keep
  addi r5, r5, -1
  bnz r5, x
  ldi r3, 100
  addi r7, r6, -10
  bz r7, end
  ldi r3, 9
  addi r7, r6, -3
  bz r7, end
  ldi r3, 0x7fffffff
  ldhi r3, 0xfffffff4
end: halt
.segment numbers 5
  .int 10
  .int 20
  .int 30
  .int 40
.thread 0 0 none xu main
.reg 1 ptr ro numbers
