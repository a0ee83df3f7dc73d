; One code for both threads, and the tag is lost by `xor`.
.segment a 6
  xor r1, r1, r9
  self r2
  bnz r2, b
  ld r3, r1, 0, any, keep
b: setptr r4, r1
.segment c 3
  .int 0
.thread 0 0 none xu a
.reg 1 ptr ro c
.thread 1 1 none xu a
.reg 1 ptr ro c
