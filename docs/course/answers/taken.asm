; Two threads add 1 to a word. Each takes the word first, and the other one waits until it is put back.
.segment code 6
  ld r2, r1, 0, full, empty   ; waits until the word is full, and leaves it empty
  addi r2, r2, 1
  out r2
  st r1, r2, 0, empty, full   ; puts the sum there, and makes the word full again
  halt
.segment word 3
  .int 64
.thread 0 0 none xu code
.reg 1 ptr rw word
.thread 1 0 none xu code
.reg 1 ptr rw word
