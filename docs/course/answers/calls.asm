; Two system calls: trap 1 prints the letter in r1, and trap 2 doubles r1. Any other fault ends the slot.
.segment serve 8
next: evt r4              ; r7 is the number after `trap`
  ldi r1, 8
  shr r3, r4, r1          ; the slot
  ldi r1, 255
  and r2, r4, r1          ; the cause
  addi r2, r2, -11
  bnz r2, end
  rreg r8, r3, 1
  addi r2, r7, -1
  bz r2, say
  addi r2, r7, -2
  bz r2, double
end: resume r3, kill
  br next
double: add r8, r8, r8
  wreg r3, r8, 1
  resume r3, skip
  br next
say: out r8
  resume r3, skip
  br next
.segment client 5
  trap 2
  trap 1
  trap 3
  halt
.thread 0 0 none xu serve
.thread 1 1 0 xu client
.reg 1 int 33
