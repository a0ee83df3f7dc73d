; Doors that count words, and registers that are cleared.
.segment gate 7
 .ptr rw count
grow: lip r7, -1
 ld r7, r7, 0, any, keep
 ld r8, r7, 0, any, keep
 addi r8, r8, 1
 st r7, r8, 0, any, keep
 ldi r7, 0
 ldi r8, 0
 jmp r6
tell: lip r7, -9
 ld r7, r7, 0, any, keep
 ld r1, r7, 0, any, keep
 ldi r7, 0
 jmp r6
.segment count 3
 .int 0
.segment c 6
 jal r6, r5
 jal r6, r5
 jal r6, r4
 halt
.thread 0 0 none xu c
.reg 5 ptr eu grow
.reg 4 ptr eu tell
