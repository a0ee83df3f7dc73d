; The reader has had the note from the beginning: nothing is handed over.
.segment owner 6
  ldi r3, 1
  restrict r4, r1, r3
  st r2, r3, 0, any, keep
  halt
.segment reader 6
own: .ptr ro note
begin: lip r2, own
  ld r3, r2, 0, any, keep
  ld r4, r3, 0, any, keep
  out r4
  st r3, r4, 0, any, keep
  halt
.segment note 3
  .int 65
.segment box 3
  .empty .int 0
.thread 0 0 none xu owner
.reg 1 ptr rw note
.reg 2 ptr rw box
.thread 1 1 none xu begin
.reg 2 ptr rw box
