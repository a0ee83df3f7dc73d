; It resumes the client before it prints.
.segment serve 7
next: evt r4
  ldi r1, 256
  divu r3, r4, r1
  rreg r2, r3, 1
  resume r3, skip
  bz r2, next
  out r2
  br next
.segment client 6
  trap 1
  mov r1, r2
  trap 1
  mov r1, r3
  trap 1
  halt
.thread 0 0 none xu serve
.thread 1 1 0 xu client
.reg 1 int 72             ; H
.reg 2 int 105            ; i
.reg 3 int 33             ; !
.thread 2 1 0 xu client
.reg 1 int 79             ; O
.reg 2 int 0
.reg 3 int 75             ; K
