; The handler does not look at the number of the trap: it doubles, prints and ends, in this order.
.segment serve 7
  evt r4
  ldi r1, 8
  shr r3, r4, r1
  rreg r2, r3, 1
  add r2, r2, r2
  wreg r3, r2, 1
  resume r3, skip
  evt r4
  out r2
  resume r3, skip
  evt r4
  resume r3, kill
  halt
.segment client 5
  trap 2
  trap 1
  trap 3
  halt
.thread 0 0 none xu serve
.thread 1 1 0 xu client
.reg 1 int 33
