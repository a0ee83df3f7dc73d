; It compares with `addi`, doubles by `shl`, and has one exit for all other faults.
.segment serve 8
next: evt r4
  ldi r1, 8
  shr r3, r4, r1
  ldi r1, 255
  and r9, r4, r1
  addi r9, r9, -11
  bnz r9, kill
  rreg r2, r3, 1
  addi r10, r7, -1
  bz r10, print
  addi r10, r7, -2
  bnz r10, kill
  ldi r1, 1
  shl r2, r2, r1
  wreg r3, r2, 1
  resume r3, skip
  br next
print: out r2
  resume r3, skip
  br next
kill: resume r3, kill
  br next
.segment client 5
  trap 2
  trap 1
  trap 3
.thread 0 0 none xu serve
.thread 1 0 0 xu client
.reg 1 int 33
