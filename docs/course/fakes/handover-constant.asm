; The letter, known before. Nothing is lent.
.segment owner 5
  halt
.segment reader 6
  ldi r3, 65
  out r3
  st r1, r3, 0, any, keep
  halt
.segment note 3
  .int 65
.thread 0 0 none xu owner
.thread 1 1 none xu reader
.reg 1 ptr ro note
