; Each call reads the register itself.
.segment h 8
next: evt r4
 ldi r1, 8
 shr r3, r4, r1
 ldi r1, 255
 and r2, r4, r1
 addi r1, r2, -11
 bnz r1, bad
 addi r1, r7, -1
 bz r1, say
 addi r1, r7, -2
 bz r1, dbl
bad: resume r3, kill
 br next
say: rreg r8, r3, 1
 out r8
 resume r3, skip
 br next
dbl: rreg r8, r3, 1
 add r8, r8, r8
 wreg r3, r8, 1
 resume r3, skip
 br next
.segment c 5
 trap 2
 trap 1
 trap 3
 halt
.thread 0 0 none xu h
.thread 1 1 0 xu c
.reg 1 int 33
