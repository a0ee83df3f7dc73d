; A letter box: two threads of two groups that share one word and nothing else. The word's synchronisation bit says
; whether there is a letter in it, so neither has to look at a flag.
.segment writer 8
  ldi r1, 72              ; H
  st r2, r1, 0, empty, full
  ldi r1, 105             ; i
  st r2, r1, 0, empty, full
  halt
.segment reader 8
  ldi r1, 2               ; how many letters
next:
  ld r3, r2, 0, full, empty
  out r3
  addi r1, r1, -1
  bnz r1, next
  halt
.segment box 3
  .empty .int 0
.thread 0 0 none xu writer
.reg 2 ptr rw box
.thread 1 1 none xu reader
.reg 2 ptr rw box
