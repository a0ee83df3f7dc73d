; It prints the first letter that it got five times.
.segment serve 7
next: evt r4
  ldi r1, 8
  shr r3, r4, r1
  rreg r2, r3, 1
  bz r2, on
  bnz r9, again
  mov r9, r2
again: out r9
on: resume r3, skip
  br next
.segment client 6
  trap 1
  mov r1, r2
  trap 1
  mov r1, r3
  trap 1
  halt
.thread 0 0 none xu serve
.thread 1 1 0 xu client
.reg 1 int 72             ; H
.reg 2 int 105            ; i
.reg 3 int 33             ; !
.thread 2 1 0 xu client
.reg 1 int 79             ; O
.reg 2 int 0
.reg 3 int 75             ; K
