; Other registers, and the integer first.
.segment prog 6
  add r9, r8, r0
  st r8, r9, 0, any, keep
  st r8, r8, 8, any, keep
  ld r2, r8, 8, any, keep
  isptr r3, r2
  ld r2, r8, 0, any, keep
  isptr r4, r2
  halt
.segment two 4
  .int 0
  .int 0
.thread 0 0 none xu prog
.reg 8 ptr rw two
