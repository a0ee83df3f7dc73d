; What becomes of a pointer's tag: a copy keeps it, arithmetic loses it, and memory keeps it.
.segment main 6
  mov r2, r1              ; a copy
  addi r3, r1, 0          ; the same 64 bits, by arithmetic
  isptr r4, r2            ; 1: the copy is a pointer
  isptr r5, r3            ; 0: the sum is not
  eq r6, r1, r3           ; 1: the bits are the same
  eqw r7, r1, r3          ; 0: the words are not, since one has the tag
  st r1, r1, 0, any, keep ; into the word that it points to
  halt
.segment cell 3
  .int 0
.thread 0 0 none xu main
.reg 1 ptr rw cell
