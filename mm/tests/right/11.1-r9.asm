; The short pointer is in r9.
.segment writer 8
  ldi r10, 5
  subseg r9, r2, r10
copy: leab r5, r1, r3
  ld r6, r5, 0, any, keep
  leab r5, r9, r3
  st r5, r6, 0, any, keep
  addi r3, r3, 8
  ltu r7, r4, r3
  bz r7, copy
  st r8, r6, 0, empty, full
  halt
.segment reader 7
  ld r6, r8, 0, full, keep ; wait for the writer
say: leab r5, r2, r3
  ld r6, r5, 0, any, keep
  out r6
  addi r3, r3, 8
  ltu r7, r3, r4          ; 1 if r3 is less than r4
  bnz r7, say
  ld r5, r2, 32, any, keep ; the pointer after the letters
  st r5, r3, 0, any, keep
  halt
.segment text 6
  .int 79                 ; O
  .int 80                 ; P
  .int 69                 ; E
  .int 78                 ; N
.segment board 6
  .fill 4
  .ptr rw done
.segment ready 3
  .empty .int 0
.segment done 3
  .int 0
.thread 0 0 none xu writer
.reg 1 ptr ro text
.reg 2 ptr rw board
.reg 4 int 32             ; four words of 8 bytes
.reg 8 ptr rw ready
.thread 1 1 none xu reader
.reg 2 ptr ro board
.reg 4 int 32
.reg 8 ptr ro ready
