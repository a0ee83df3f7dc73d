; The reader has a pointer to the note from the beginning.
.segment owner 5
  ldi r3, 1
  restrict r4, r1, r3
  st r1, r1, 0, any, keep
  halt
.segment reader 6
  ld r3, r1, 0, any, keep
  out r3
  st r1, r3, 0, any, keep
  halt
.segment note 3
  .int 65
.segment box 3
  .empty .int 0
.thread 0 0 none xu owner
.reg 1 ptr rw box
.thread 1 1 none xu reader
.reg 1 ptr ro note
