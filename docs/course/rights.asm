; A thread gives up its right to write, and then tries to write.
.segment main 6
  ldi r2, 1               ; the code of read-only
  restrict r3, r1, r2     ; the same segment, to be read
  ld r4, r3, 0, any, keep
  out r4
  ldi r5, 66
  st r1, r5, 0, any, keep ; the old pointer allows it
  st r3, r5, 0, any, keep ; the new one does not
  halt
.segment note 3
  .int 65
.thread 0 0 none xu main
.reg 1 ptr rw note
