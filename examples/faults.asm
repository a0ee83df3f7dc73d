; Two threads reach for memory that they were not given. The walker moves its pointer on, past the end of its segment.
; The forger knows the bits of the walker's pointer, and puts them together as an integer.
.segment forge 6
  ldi r1, 0x11400000      ; read-only, 2^5 bytes,
  ldhi r1, 0x00100060     ; at the address of the text
  isptr r2, r1            ; 0: it is not a pointer
  ld r3, r1, 0, any, keep
  out r3
  halt
.segment walk 5
next: ld r2, r1, 0, any, keep
  out r2
  leai r1, r1, 8
  br next
.segment text 5
  .int 72                 ; Hey!
  .int 101
  .int 121
  .int 33
.thread 0 0 none xu walk
.reg 1 ptr ro text
.thread 1 1 none xu forge
