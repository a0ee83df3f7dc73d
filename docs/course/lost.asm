; Two clients hand letters to a handler by a trap: each has three words, and integer 0 is not a letter. The handler prints
; the letters. One of the clients does not come to its end.
.segment serve 7
next: evt r4              ; r4 is the cause + 256 * the slot
  ldi r1, 8
  shr r3, r4, r1          ; the slot
  rreg r2, r3, 1          ; its letter
  bz r2, next             ; it is not a letter
  out r2
  resume r3, skip
  br next
.segment client 6
  trap 1
  mov r1, r2
  trap 1
  mov r1, r3
  trap 1
  halt
.thread 0 0 none xu serve
.thread 1 1 0 xu client
.reg 1 int 72             ; H
.reg 2 int 105            ; i
.reg 3 int 33             ; !
.thread 2 1 0 xu client
.reg 1 int 79             ; O
.reg 2 int 0
.reg 3 int 75             ; K
