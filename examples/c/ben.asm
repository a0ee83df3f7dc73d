.segment ben_text 12
start:
  ldi r0, 1
  ldi r1, 0
  lip r14, 2
  br ben_main
  halt
ben_main:
  ;@ function main at examples/c/ben.c:8
  ;@ inlined 1 say_number at examples/c/ben.c:12
  ;@ inlined 2 say at examples/c/ben.c:15
  ;@ inlined 3 say_number at examples/c/ben.c:16
  ;@ frame back 56 caller at 64
  ;@ local digits 20 at 104 log 5 type 6 in 3
  ;@ local digits 20 at 136 log 5 type 6 in 1
  ;@ local bits 8 at 72 log 3 type 4
  ldi r13, 31
  and r13, r15, r13
  ldi r12, -160
  sub r13, r12, r13
  lea r12, r15, r13
  st r12, r15, 64, any, keep
  mov r15, r12
  st r15, r7, 16, any, keep
  st r15, r8, 24, any, keep
  st r15, r9, 32, any, keep
  st r15, r10, 40, any, keep
  st r15, r11, 48, any, keep
  st r15, r14, 56, any, keep
  leai r10, r15, 104
  ldi r14, 5
  subseg r10, r10, r14
  leai r12, r15, 136
  ldi r14, 5
  subseg r12, r12, r14
  st r15, r12, 0, any, keep
  ldi r11, 10
  ldi r9, 32
  ;@ line examples/c/ben.c:10
  lip r14, 2
  br ben_to_open_drawer
  st r15, r0, 8, any, keep
  ;@ line examples/c/ben.c:11
  ;@ var key 1 s8
  ld r0, r15, 8, any, keep
  ldi r1, 77
  lip r14, 2
  br ben_to_put_in
  ;@ line examples/c/ben.c:12
  ld r0, r15, 8, any, keep
  lip r14, 2
  br ben_to_look_in
  ;@ line examples/c/say.h:15 in 1
  ;@ var number 2 r0 in 1
  ;@ var length 3 0 in 1
  ldi r12, 0
  sub r2, r12, r0
  ldi r13, 0
  lts r1, r0, r13
  mov r7, r2
  bnz r1, L30
  mov r7, r0
L30:
  ;@ line examples/c/say.h:16 in 1
  ;@ var rest 4 r7 in 1
  ldi r13, 0
  lts r0, r0, r13
  ;@ var number 2 - in 1
  bz r0, L3
L2:
  ;@ line examples/c/say.h:17 in 1
  ldi r0, 45
  lip r14, 2
  br ben_putchar
L3:
  ldi r1, 0
L4:
  ;@ line examples/c/say.h:20 in 1
  ;@ var length 3 r1 in 1
  divu r5, r7, r11
  mul r0, r5, r11
  sub r0, r7, r0
  ;@ line examples/c/say.h:19 in 1
  ldi r13, 48
  or r4, r0, r13
  addi r8, r1, 1
  shl r0, r8, r9
  sar r6, r0, r9
  ;@ var length 3 r8 in 1
  addi r1, r1, 8
  ldi r13, -8
  and r0, r1, r13
  ld r12, r15, 0, any, keep
  leab r3, r12, r0
  ldi r13, 3
  shl r2, r1, r13
  ld r1, r3, 0, any, keep
  shr r0, r1, r2
  xor r0, r0, r4
  ldi r13, 255
  and r0, r0, r13
  shl r0, r0, r2
  xor r0, r1, r0
  st r3, r0, 0, any, keep
  ;@ var rest 4 r5 in 1
  ltu r0, r7, r11
  bnz r0, L5
L23:
  ;@ var length 3 r6 in 1
  mov r1, r6
  ;@ var length 3 - in 1
  mov r7, r5
  ;@ var rest 4 - in 1
  br L4
L5:
  ;@ line examples/c/say.h:21 in 1
  ;@ var length 3 r8 in 1
  bz r6, L7
L6:
  ;@ line examples/c/say.h:22 in 1
  addi r8, r8, -1
  ;@ var length 3 - in 1
  shl r0, r8, r9
  sar r7, r0, r9
  ;@ var length 3 r8 in 1
  addi r1, r7, 8
  ldi r13, -8
  and r0, r1, r13
  ld r12, r15, 0, any, keep
  leab r0, r12, r0
  ldi r13, 3
  shl r1, r1, r13
  ld r0, r0, 0, any, keep
  shr r0, r0, r1
  ldi r13, 56
  shl r0, r0, r13
  ldi r13, 56
  sar r0, r0, r13
  lip r14, 2
  br ben_putchar
  ;@ line examples/c/say.h:21 in 1
  bnz r7, L6
L7:
  ;@ line examples/c/ben.c:13
  ;@ var length 3 - in 1
  ld r12, r15, 8, any, keep
  st r15, r12, 72, any, keep
  ;@ var key 1 -
  ;@ var by 2 -8
  ldi r12, -8
  st r15, r12, 0, any, keep
  ;@ line examples/c/ben.c:14
  br L9
L8:
  ;@ line examples/c/ben.c:18
  ;@ var by 2 -
  ldi r0, 0
  ld r7, r15, 16, any, keep
  ld r8, r15, 24, any, keep
  ld r9, r15, 32, any, keep
  ld r10, r15, 40, any, keep
  ld r11, r15, 48, any, keep
  ld r14, r15, 56, any, keep
  ld r15, r15, 64, any, keep
  jmp r14
L9:
  ;@ line examples/c/say.h:8 in 2
  ;@ var by 2 s0
  lip r12, P_0
  ld r12, r12, 0, any, keep
  ld r1, r12, 0, any, keep
  mov r0, r9
  lip r14, 2
  br ben_fputc
  ;@ line examples/c/ben.c:16
  ld r0, r15, 72, any, keep
  ld r13, r15, 0, any, keep
  add r0, r0, r13
  lip r14, 2
  br ben_to_look_in
  ;@ line examples/c/say.h:15 in 3
  ;@ var number 2 r0 in 3
  ;@ var length 3 0 in 3
  ldi r12, 0
  sub r2, r12, r0
  ldi r13, 0
  lts r1, r0, r13
  mov r7, r2
  bnz r1, L31
  mov r7, r0
L31:
  ;@ line examples/c/say.h:16 in 3
  ;@ var rest 4 r7 in 3
  ldi r13, 0
  lts r0, r0, r13
  ;@ var number 2 - in 3
  bz r0, L11
L10:
  ;@ line examples/c/say.h:17 in 3
  ldi r0, 45
  lip r14, 2
  br ben_putchar
L11:
  ldi r1, 0
L12:
  ;@ line examples/c/say.h:20 in 3
  ;@ var length 3 r1 in 3
  divu r5, r7, r11
  mul r0, r5, r11
  sub r0, r7, r0
  ;@ line examples/c/say.h:19 in 3
  ldi r13, 48
  or r4, r0, r13
  addi r8, r1, 1
  shl r0, r8, r9
  sar r6, r0, r9
  ;@ var length 3 r8 in 3
  addi r1, r1, 8
  ldi r13, -8
  and r0, r1, r13
  leab r3, r10, r0
  ldi r13, 3
  shl r2, r1, r13
  ld r1, r3, 0, any, keep
  shr r0, r1, r2
  xor r0, r0, r4
  ldi r13, 255
  and r0, r0, r13
  shl r0, r0, r2
  xor r0, r1, r0
  st r3, r0, 0, any, keep
  ;@ var rest 4 r5 in 3
  ltu r0, r7, r11
  bnz r0, L13
L26:
  ;@ var length 3 r6 in 3
  mov r1, r6
  ;@ var length 3 - in 3
  mov r7, r5
  ;@ var rest 4 - in 3
  br L12
L13:
  ;@ line examples/c/say.h:21 in 3
  ;@ var length 3 r8 in 3
  bz r6, L15
L14:
  ;@ line examples/c/say.h:22 in 3
  addi r8, r8, -1
  ;@ var length 3 - in 3
  shl r0, r8, r9
  sar r7, r0, r9
  ;@ var length 3 r8 in 3
  addi r1, r7, 8
  ldi r13, -8
  and r0, r1, r13
  leab r0, r10, r0
  ldi r13, 3
  shl r1, r1, r13
  ld r0, r0, 0, any, keep
  shr r0, r0, r1
  ldi r13, 56
  shl r0, r0, r13
  ldi r13, 56
  sar r0, r0, r13
  lip r14, 2
  br ben_putchar
  ;@ line examples/c/say.h:21 in 3
  bnz r7, L14
L15:
  ;@ line examples/c/ben.c:14
  ;@ var length 3 - in 3
  ld r12, r15, 0, any, keep
  addi r12, r12, 8
  st r15, r12, 0, any, keep
  ld r12, r15, 0, any, keep
  ldi r13, 9
  ltu r0, r12, r13
  bnz r0, L9
  br L8
ben_fputc:
  ;@ frame back - caller by 0
  out r0
  ldi r13, 255
  and r0, r0, r13
  jmp r14
ben_putchar:
  ;@ frame back - caller by 0
  out r0
  ldi r13, 255
  and r0, r0, r13
  jmp r14
ben_to_open_drawer:
  ;@ frame back - caller by 0
  lip r13, L16
  ld r12, r13, 0, any, keep
  br L18
ben_from_open_drawer:
  lip r13, L16
  br L17
ben_to_put_in:
  ;@ frame back - caller by 0
  lip r13, L19
  ld r12, r13, 0, any, keep
  br L20
ben_from_put_in:
  lip r13, L19
  br L17
ben_to_look_in:
  ;@ frame back - caller by 0
  lip r13, L21
  ld r12, r13, 0, any, keep
  br L22
ben_from_look_in:
  lip r13, L21
  br L17
ben_leave:
  ;@ frame back 40 caller by 56
L18:
  ldi r0, 0
L22:
  ldi r1, 0
L20:
  ldi r2, 0
  ldi r3, 0
  ldi r4, 0
  ldi r5, 0
  ldi r6, 0
  leai r15, r15, -56
  st r15, r7, 0, any, keep
  st r15, r8, 8, any, keep
  st r15, r9, 16, any, keep
  st r15, r10, 24, any, keep
  st r15, r11, 32, any, keep
  st r15, r14, 40, any, keep
  ld r7, r13, 16, any, keep
  self r8
  ldi r9, 3
  shl r8, r8, r9
  lea r7, r7, r8
  ld r8, r7, 0, any, keep
  st r15, r8, 48, any, keep
  st r7, r15, 0, any, keep
  ld r14, r13, 8, any, keep
  ldi r7, 0
  ldi r8, 0
  ldi r9, 0
  ldi r10, 0
  ldi r11, 0
  ldi r13, 0
  ldi r15, 0
  jmp r12
L17:
  ld r13, r13, 16, any, keep
  self r12
  ldi r14, 3
  shl r12, r12, r14
  lea r13, r13, r12
  ld r15, r13, 0, any, keep
  isptr r12, r15
  bz r12, L34
  ld r12, r15, 48, any, keep
  st r13, r12, 0, any, keep
  ld r7, r15, 0, any, keep
  ld r8, r15, 8, any, keep
  ld r9, r15, 16, any, keep
  ld r10, r15, 24, any, keep
  ld r11, r15, 32, any, keep
  ld r14, r15, 40, any, keep
  leai r15, r15, 56
  jmp r14
L34:
  halt
L16:
  .ptr eu door_open_drawer+16
  .ptr eu ben_from_open_drawer
  .ptr rw ben_calls+0
L19:
  .ptr eu door_put_in+16
  .ptr eu ben_from_put_in
  .ptr rw ben_calls+128
L21:
  .ptr eu door_look_in+16
  .ptr eu ben_from_look_in
  .ptr rw ben_calls+256
P_0: .ptr rw ben_stdout+0
.segment ben_stdout 3
  ;@ global stdout 8 at 0
  .ptr rw ben_files+8
.segment ben_files 4
  ;@ global files 12 at 4
  .fill 1
  .int 0x200000001
.segment ben_calls 9
.segment ben_stack 16
.thread 1 1 none xu start
.reg 15 ptr rw ben_stack+65472
;@ type 1 pointer 0
;@ type 2 base i8 long
;@ type 3 base i4 int
;@ type 4 base u8 unsigned long
;@ type 5 base i1 char
;@ type 6 array 20 5
