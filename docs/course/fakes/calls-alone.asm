; A handler that prints B at the second of three traps, whatever the caller has.
.segment serve 7
  evt r4
  ldi r1, 8
  shr r3, r4, r1
  ldi r8, 66
  wreg r3, r8, 1
  resume r3, skip
  evt r4
  out r8
  resume r3, skip
  evt r4
  resume r3, kill
  halt
.segment client 5
  trap 2
  trap 1
  trap 3
  halt
.thread 0 0 none xu serve
.thread 1 1 0 xu client
.reg 1 int 33
