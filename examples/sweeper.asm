; A store into each of 18 pages, at blocks that share one line of the cache, and then loads from two of them.
.segment data 17
  .fill 16384
.segment sweep 12
loop: st r1, r2, 0, any, keep
  leai r1, r1, 4096
  addi r3, r3, -1
  bnz r3, loop
  ld r5, r4, 0, any, keep
  ld r6, r7, 0, any, keep
  halt
.thread 0 0 none xu sweep
.reg 1 ptr rw data + 64
.reg 2 int 7
.reg 3 int 18
.reg 4 ptr ro data + 0x1040
.reg 7 ptr ro data + 0x3040
