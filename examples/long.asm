; A long run: the sum of the numbers 1 to 100000, four times over. After each time a dot, and the sum so far in memory.
.segment sum 7
  ldi r3, 4
  ldi r5, 46
again: ldi r1, 100000
next: add r2, r2, r1
  addi r1, r1, -1
  bnz r1, next
  out r5
  st r4, r2, 0, any, keep
  addi r3, r3, -1
  bnz r3, again
  halt
.segment total 3
  .int 0
.thread 0 0 none xu sum
.reg 4 ptr rw total
