; Four threads run the same load, each with another word in r1.
.segment code 4
  ld r2, r1, 4, any, keep
  halt
.segment short 3
  .int 0
.segment long 4
  .fill 2
.thread 0 0 none xu code
.reg 1 int 0x100000
.thread 1 1 none xu code
.reg 1 ptr key short
.thread 2 2 none xu code
.reg 1 ptr ro short
.thread 3 3 none xu code
.reg 1 ptr ro long
