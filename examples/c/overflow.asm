.segment text 11
start:
  ldi r0, 1
  ldi r1, 0
  lip r14, 2
  br main
  halt
main:
  ;@ function main at examples/c/overflow.c:13
  ;@ inlined 1 read_name at examples/c/overflow.c:15
  ;@ inlined 2 say at examples/c/overflow.c:16
  ;@ inlined 3 read_name at examples/c/overflow.c:17
  ;@ inlined 4 say at examples/c/overflow.c:18
  ;@ frame back 40 caller by 48
  leai r15, r15, -48
  st r15, r7, 0, any, keep
  st r15, r8, 8, any, keep
  st r15, r9, 16, any, keep
  st r15, r10, 24, any, keep
  st r15, r11, 32, any, keep
  st r15, r14, 40, any, keep
  lip r9, P_0
  ld r9, r9, 0, any, keep
  ldi r7, 3
  ldi r8, -8
  ldi r10, 255
  lip r6, P_1
  ld r6, r6, 0, any, keep
  ldi r11, 6
  ;@ var i 1 0 in 1
  ldi r4, 0
  ldi r5, 67
L2:
  ;@ line examples/c/overflow.c:10 in 1
  ;@ var i 1 r4 in 1
  and r0, r4, r8
  leab r3, r9, r0
  shl r2, r4, r7
  ld r1, r3, 0, any, keep
  shr r0, r1, r2
  xor r0, r0, r5
  and r0, r0, r10
  shl r0, r0, r2
  xor r0, r1, r0
  st r3, r0, 0, any, keep
  ;@ line examples/c/overflow.c:9 in 1
  addi r4, r4, 1
  addi r1, r4, 1
  and r0, r1, r8
  leab r0, r6, r0
  shl r1, r1, r7
  ld r0, r0, 0, any, keep
  shr r5, r0, r1
  eq r0, r4, r11
  bz r0, L2
L3:
  ;@ line examples/c/overflow.c:16
  ;@ var i 1 - in 1
  lip r12, P_2
  ld r12, r12, 0, any, keep
  ld r0, r12, 0, any, keep
  lip r4, P_3
  ld r4, r4, 0, any, keep
  bnz r0, L8
  lip r4, P_4
  ld r4, r4, 0, any, keep
L8:
  ;@ line examples/c/say.h:8 in 2
  ;@ var text 2 r4+0 in 2
  lip r12, P_5
  ld r12, r12, 0, any, keep
  ld r3, r12, 0, any, keep
  ldi r13, 0
  add r2, r4, r13
  isptr r0, r4
  bz r0, L9
  ldi r0, 54
  shr r0, r4, r0
  xor r1, r2, r4
  shr r1, r1, r0
  bnz r1, L9
  lea r2, r4, r13
L9:
  ;@ var text 2 - in 2
  mov r0, r2
  mov r1, r3
  lip r14, 2
  br fputs
  ;@ var i 1 0 in 3
  ldi r4, 0
  ldi r5, 65
L4:
  ;@ line examples/c/overflow.c:10 in 3
  ;@ var i 1 r4 in 3
  and r0, r4, r8
  leab r3, r9, r0
  shl r2, r4, r7
  ld r1, r3, 0, any, keep
  shr r0, r1, r2
  xor r0, r0, r5
  and r0, r0, r10
  shl r0, r0, r2
  xor r0, r1, r0
  st r3, r0, 0, any, keep
  ;@ line examples/c/overflow.c:9 in 3
  addi r4, r4, 1
  addi r1, r4, 6
  and r0, r1, r8
  lip r12, P_6
  ld r12, r12, 0, any, keep
  leab r0, r12, r0
  shl r1, r1, r7
  ld r0, r0, 0, any, keep
  shr r5, r0, r1
  ldi r13, 9
  eq r0, r4, r13
  bz r0, L4
L5:
  ;@ line examples/c/overflow.c:18
  ;@ var i 1 - in 3
  lip r12, P_2
  ld r12, r12, 0, any, keep
  ld r0, r12, 0, any, keep
  lip r4, P_3
  ld r4, r4, 0, any, keep
  bnz r0, L10
  lip r4, P_4
  ld r4, r4, 0, any, keep
L10:
  ;@ line examples/c/say.h:8 in 4
  ;@ var text 2 r4+0 in 4
  lip r12, P_5
  ld r12, r12, 0, any, keep
  ld r3, r12, 0, any, keep
  ldi r13, 0
  add r2, r4, r13
  isptr r0, r4
  bz r0, L11
  ldi r0, 54
  shr r0, r4, r0
  xor r1, r2, r4
  shr r1, r1, r0
  bnz r1, L11
  lea r2, r4, r13
L11:
  ;@ var text 2 - in 4
  mov r0, r2
  mov r1, r3
  lip r14, 2
  br fputs
  ;@ line examples/c/overflow.c:19
  ldi r0, 0
  ld r7, r15, 0, any, keep
  ld r8, r15, 8, any, keep
  ld r9, r15, 16, any, keep
  ld r10, r15, 24, any, keep
  ld r11, r15, 32, any, keep
  ld r14, r15, 40, any, keep
  leai r15, r15, 48
  jmp r14
fputs:
  ;@ frame back - caller by 16
  leai r15, r15, -16
  st r15, r7, 0, any, keep
  st r15, r8, 8, any, keep
  mov r5, r0
  ldi r6, 3
  ldi r4, 0
  ldi r7, 7
  ldi r3, 56
  ldi r8, 255
  and r0, r5, r7
  sub r0, r4, r0
  lea r0, r5, r0
  shl r1, r5, r6
  ld r0, r0, 0, any, keep
  shr r0, r0, r1
  shl r0, r0, r3
  sar r1, r0, r3
  and r0, r1, r8
  bz r0, L13
L15:
  mov r2, r4
  br L14
L13:
  mov r0, r4
  ld r7, r15, 0, any, keep
  ld r8, r15, 8, any, keep
  leai r15, r15, 16
  jmp r14
L14:
  out r1
  addi r2, r2, 1
  lea r1, r5, r2
  and r0, r1, r7
  sub r0, r4, r0
  lea r0, r1, r0
  shl r1, r1, r6
  ld r0, r0, 0, any, keep
  shr r0, r0, r1
  shl r0, r0, r3
  sar r1, r0, r3
  and r0, r1, r8
  bz r0, L13
  br L14
P_0: .ptr rw name+0
P_1: .ptr ro _str+1
P_2: .ptr rw allowed+0
P_3: .ptr ro _str_1+0
P_4: .ptr ro _str_2+11
P_5: .ptr rw stdout+0
P_6: .ptr ro _str_3+6
.segment name 3
  ;@ global name 8 at 0 type 4
.segment _str 3
  ;@ unnamed at 1 constant
  .int 0x72657472614300
.segment allowed 3
  ;@ global allowed 8 at 0 type 5
.segment _str_2 5
  ;@ unnamed at 11 constant
  .fill 1
  .int 0x6420656874000000
  .int 0x7961747320726f6f
  .int 0xa747568732073
.segment _str_1 4
  ;@ unnamed at 0 constant
  .int 0x726f6f6420656874
  .int 0xa736e65706f20
.segment stdout 3
  ;@ global stdout 8 at 0
  .ptr rw files+8
.segment _str_3 4
  ;@ unnamed at 6 constant
  .int 0x4141000000000000
  .int 0x1414141414141
.segment files 4
  ;@ global files 12 at 4
  .fill 1
  .int 0x200000001
.segment stack 16
.thread 0 0 none xu start
.reg 15 ptr rw stack+65472
;@ type 1 base i4 int
;@ type 2 pointer 3
;@ type 3 base i1 char
;@ type 4 array 8 3
;@ type 5 base i8 long
