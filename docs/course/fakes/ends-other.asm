; The faults, but none where it should be.
.segment data 4
  ldi r1, 1
  .int 66
.segment other 4
  ldi r1, 1
  .int 65
.segment load 4
  ld r1, r1, 0, any, keep
  halt
.segment word 3
  .int 0
.thread 0 0 none xu data
.thread 1 1 none xu other
.thread 2 2 none xu load
.reg 1 ptr ro word + 4
