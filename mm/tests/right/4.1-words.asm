; Other words in the registers.
.segment code 4
  ld r2, r1, 4, any, keep
  halt
.segment d 4
  .int 0
  .int 0
.thread 0 0 none xu code
.reg 1 int 12
.thread 1 0 none xu code
.reg 1 ptr eu d
.thread 2 0 none xu code
.reg 1 ptr ro end
.thread 3 0 none xu code
.reg 1 ptr rw d
.segment e 3
end: .int 0
