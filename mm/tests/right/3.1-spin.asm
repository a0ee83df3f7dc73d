; The reader looks until there is a pointer.
.segment owner 5
  ldi r9, 1
  restrict r8, r5, r9
  st r6, r8, 0, any, keep
  halt
.segment reader 6
x: ld r3, r6, 0, any, keep
  isptr r4, r3
  bz r4, x
  ld r4, r3, 0, any, keep
  out r4
  st r3, r4, 0, any, keep
  halt
.segment box 3
  .int 0
.segment note 3
  .int 65
.thread 0 3 none xu owner
.reg 5 ptr rw note
.reg 6 ptr rw box
.thread 1 1 none xu reader
.reg 6 ptr ro box
