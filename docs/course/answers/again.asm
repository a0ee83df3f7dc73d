; Two threads have lost the tag of their pointer. One loads as if the tag were there, and one tries to get it back.
.segment uses 5
  addi r2, r1, 0
  ld r3, r2, 0, any, keep
  halt
.segment asks 5
  addi r2, r1, 0
  setptr r2, r2
  ld r3, r2, 0, any, keep
  halt
.segment cell 3
  .int 65
.thread 0 0 none xu uses
.reg 1 ptr ro cell
.thread 1 1 none xu asks
.reg 1 ptr ro cell
