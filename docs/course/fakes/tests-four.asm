; The four faults, each at an instruction of its own.
.segment one 3
  ld r2, r1, 4, any, keep
.segment two 3
  ld r2, r1, 4, any, keep
.segment three 3
  ld r2, r1, 4, any, keep
.segment four 3
  ld r2, r1, 4, any, keep
.segment short 3
  .int 0
.segment long 4
  .fill 2
.thread 0 0 none xu one
.thread 1 1 none xu two
.reg 1 ptr key short
.thread 2 2 none xu three
.reg 1 ptr ro short
.thread 3 3 none xu four
.reg 1 ptr ro long
