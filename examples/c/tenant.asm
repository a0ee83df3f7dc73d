.segment tenant_text 12
start:
  ldi r0, 1
  ldi r1, 0
  lip r14, 2
  br tenant_main
  halt
tenant_main:
  ;@ function main at examples/c/tenant.c:7
  ;@ inlined 1 say_number at examples/c/tenant.c:11
  ;@ inlined 2 say at examples/c/tenant.c:12
  ;@ inlined 3 say_number at examples/c/tenant.c:13
  ;@ inlined 4 say at examples/c/tenant.c:14
  ;@ inlined 5 say_number at examples/c/tenant.c:15
  ;@ frame back 64 caller at 72
  ;@ local digits 20 at 104 log 5 type 5 in 5
  ;@ local digits 20 at 136 log 5 type 5 in 3
  ;@ local digits 20 at 168 log 5 type 5 in 1
  ldi r13, 31
  and r13, r15, r13
  ldi r12, -192
  sub r13, r12, r13
  lea r12, r15, r13
  st r12, r15, 72, any, keep
  mov r15, r12
  st r15, r7, 24, any, keep
  st r15, r8, 32, any, keep
  st r15, r9, 40, any, keep
  st r15, r10, 48, any, keep
  st r15, r11, 56, any, keep
  st r15, r14, 64, any, keep
  leai r12, r15, 104
  ldi r14, 5
  subseg r12, r12, r14
  st r15, r12, 8, any, keep
  leai r12, r15, 136
  ldi r14, 5
  subseg r12, r12, r14
  st r15, r12, 0, any, keep
  leai r10, r15, 168
  ldi r14, 5
  subseg r10, r10, r14
  ldi r11, 10
  ldi r9, 32
  ;@ line examples/c/tenant.c:9
  lip r14, 2
  br tenant_to_get
  st r15, r0, 16, any, keep
  ;@ line examples/c/tenant.c:10
  ;@ var mine 1 s16
  ld r0, r15, 16, any, keep
  ldi r1, 1
  ldi r2, 1234
  lip r14, 2
  br tenant_to_put
  ;@ line examples/c/tenant.c:11
  ld r0, r15, 16, any, keep
  ldi r1, 1
  lip r14, 2
  br tenant_to_look
  ;@ line examples/c/say.h:15 in 1
  ;@ var number 1 r0 in 1
  ;@ var length 2 0 in 1
  ldi r12, 0
  sub r2, r12, r0
  ldi r13, 0
  lts r1, r0, r13
  mov r7, r2
  bnz r1, L38
  mov r7, r0
L38:
  ;@ line examples/c/say.h:16 in 1
  ;@ var rest 3 r7 in 1
  ldi r13, 0
  lts r0, r0, r13
  ;@ var number 1 - in 1
  bz r0, L3
L2:
  ;@ line examples/c/say.h:17 in 1
  ldi r0, 45
  lip r14, 2
  br tenant_putchar
L3:
  ldi r1, 0
L4:
  ;@ line examples/c/say.h:20 in 1
  ;@ var length 2 r1 in 1
  divu r5, r7, r11
  mul r0, r5, r11
  sub r0, r7, r0
  ;@ line examples/c/say.h:19 in 1
  ldi r13, 48
  or r4, r0, r13
  addi r8, r1, 1
  shl r0, r8, r9
  sar r6, r0, r9
  ;@ var length 2 r8 in 1
  addi r1, r1, 8
  ldi r13, -8
  and r0, r1, r13
  leab r3, r10, r0
  ldi r13, 3
  shl r2, r1, r13
  ld r1, r3, 0, any, keep
  shr r0, r1, r2
  xor r0, r0, r4
  ldi r13, 255
  and r0, r0, r13
  shl r0, r0, r2
  xor r0, r1, r0
  st r3, r0, 0, any, keep
  ;@ var rest 3 r5 in 1
  ltu r0, r7, r11
  bnz r0, L5
L29:
  ;@ var length 2 r6 in 1
  mov r1, r6
  ;@ var length 2 - in 1
  mov r7, r5
  ;@ var rest 3 - in 1
  br L4
L5:
  ;@ line examples/c/say.h:21 in 1
  ;@ var length 2 r8 in 1
  bz r6, L7
L6:
  ;@ line examples/c/say.h:22 in 1
  addi r8, r8, -1
  ;@ var length 2 - in 1
  shl r0, r8, r9
  sar r7, r0, r9
  ;@ var length 2 r8 in 1
  addi r1, r7, 8
  ldi r13, -8
  and r0, r1, r13
  leab r0, r10, r0
  ldi r13, 3
  shl r1, r1, r13
  ld r0, r0, 0, any, keep
  shr r0, r0, r1
  ldi r13, 56
  shl r0, r0, r13
  ldi r13, 56
  sar r0, r0, r13
  lip r14, 2
  br tenant_putchar
  ;@ line examples/c/say.h:21 in 1
  bnz r7, L6
L7:
  ;@ line examples/c/say.h:8 in 2
  ;@ var length 2 - in 1
  lip r12, P_0
  ld r12, r12, 0, any, keep
  ld r1, r12, 0, any, keep
  mov r0, r9
  lip r14, 2
  br tenant_fputc
  ;@ line examples/c/tenant.c:13
  ld r0, r15, 16, any, keep
  lip r14, 2
  br tenant_to_give_back
  ;@ line examples/c/say.h:15 in 3
  ;@ var number 1 r0 in 3
  ;@ var length 2 0 in 3
  ldi r12, 0
  sub r2, r12, r0
  ldi r13, 0
  lts r1, r0, r13
  mov r7, r2
  bnz r1, L39
  mov r7, r0
L39:
  ;@ line examples/c/say.h:16 in 3
  ;@ var rest 3 r7 in 3
  ldi r13, 0
  lts r0, r0, r13
  ;@ var number 1 - in 3
  bz r0, L9
L8:
  ;@ line examples/c/say.h:17 in 3
  ldi r0, 45
  lip r14, 2
  br tenant_putchar
L9:
  ldi r1, 0
L10:
  ;@ line examples/c/say.h:20 in 3
  ;@ var length 2 r1 in 3
  divu r5, r7, r11
  mul r0, r5, r11
  sub r0, r7, r0
  ;@ line examples/c/say.h:19 in 3
  ldi r13, 48
  or r4, r0, r13
  addi r8, r1, 1
  shl r0, r8, r9
  sar r6, r0, r9
  ;@ var length 2 r8 in 3
  addi r1, r1, 8
  ldi r13, -8
  and r0, r1, r13
  ld r12, r15, 0, any, keep
  leab r3, r12, r0
  ldi r13, 3
  shl r2, r1, r13
  ld r1, r3, 0, any, keep
  shr r0, r1, r2
  xor r0, r0, r4
  ldi r13, 255
  and r0, r0, r13
  shl r0, r0, r2
  xor r0, r1, r0
  st r3, r0, 0, any, keep
  ;@ var rest 3 r5 in 3
  ltu r0, r7, r11
  bnz r0, L11
L32:
  ;@ var length 2 r6 in 3
  mov r1, r6
  ;@ var length 2 - in 3
  mov r7, r5
  ;@ var rest 3 - in 3
  br L10
L11:
  ;@ line examples/c/say.h:21 in 3
  ;@ var length 2 r8 in 3
  bz r6, L13
L12:
  ;@ line examples/c/say.h:22 in 3
  addi r8, r8, -1
  ;@ var length 2 - in 3
  shl r0, r8, r9
  sar r7, r0, r9
  ;@ var length 2 r8 in 3
  addi r1, r7, 8
  ldi r13, -8
  and r0, r1, r13
  ld r12, r15, 0, any, keep
  leab r0, r12, r0
  ldi r13, 3
  shl r1, r1, r13
  ld r0, r0, 0, any, keep
  shr r0, r0, r1
  ldi r13, 56
  shl r0, r0, r13
  ldi r13, 56
  sar r0, r0, r13
  lip r14, 2
  br tenant_putchar
  ;@ line examples/c/say.h:21 in 3
  bnz r7, L12
L13:
  ;@ line examples/c/say.h:8 in 4
  ;@ var length 2 - in 3
  lip r12, P_0
  ld r12, r12, 0, any, keep
  ld r1, r12, 0, any, keep
  mov r0, r9
  lip r14, 2
  br tenant_fputc
  ;@ line examples/c/tenant.c:15
  ld r0, r15, 16, any, keep
  ldi r1, 1
  lip r14, 2
  br tenant_to_look
  ;@ line examples/c/say.h:15 in 5
  ;@ var mine 1 -
  ;@ var number 1 r0 in 5
  ;@ var length 2 0 in 5
  ldi r12, 0
  sub r2, r12, r0
  ldi r13, 0
  lts r1, r0, r13
  mov r7, r2
  bnz r1, L40
  mov r7, r0
L40:
  ;@ line examples/c/say.h:16 in 5
  ;@ var rest 3 r7 in 5
  ldi r13, 0
  lts r0, r0, r13
  ;@ var number 1 - in 5
  bz r0, L15
L14:
  ;@ line examples/c/say.h:17 in 5
  ldi r0, 45
  lip r14, 2
  br tenant_putchar
L15:
  ldi r1, 0
L16:
  ;@ line examples/c/say.h:20 in 5
  ;@ var length 2 r1 in 5
  divu r5, r7, r11
  mul r0, r5, r11
  sub r0, r7, r0
  ;@ line examples/c/say.h:19 in 5
  ldi r13, 48
  or r4, r0, r13
  addi r8, r1, 1
  shl r0, r8, r9
  sar r6, r0, r9
  ;@ var length 2 r8 in 5
  addi r1, r1, 8
  ldi r13, -8
  and r0, r1, r13
  ld r12, r15, 8, any, keep
  leab r3, r12, r0
  ldi r13, 3
  shl r2, r1, r13
  ld r1, r3, 0, any, keep
  shr r0, r1, r2
  xor r0, r0, r4
  ldi r13, 255
  and r0, r0, r13
  shl r0, r0, r2
  xor r0, r1, r0
  st r3, r0, 0, any, keep
  ;@ var rest 3 r5 in 5
  ltu r0, r7, r11
  bnz r0, L17
L35:
  ;@ var length 2 r6 in 5
  mov r1, r6
  ;@ var length 2 - in 5
  mov r7, r5
  ;@ var rest 3 - in 5
  br L16
L17:
  ;@ line examples/c/say.h:21 in 5
  ;@ var length 2 r8 in 5
  bz r6, L19
L18:
  ;@ line examples/c/say.h:22 in 5
  addi r8, r8, -1
  ;@ var length 2 - in 5
  shl r0, r8, r9
  sar r7, r0, r9
  ;@ var length 2 r8 in 5
  addi r1, r7, 8
  ldi r13, -8
  and r0, r1, r13
  ld r12, r15, 8, any, keep
  leab r0, r12, r0
  ldi r13, 3
  shl r1, r1, r13
  ld r0, r0, 0, any, keep
  shr r0, r0, r1
  ldi r13, 56
  shl r0, r0, r13
  ldi r13, 56
  sar r0, r0, r13
  lip r14, 2
  br tenant_putchar
  ;@ line examples/c/say.h:21 in 5
  bnz r7, L18
L19:
  ;@ line examples/c/tenant.c:16
  ;@ var length 2 - in 5
  ldi r0, 0
  ld r7, r15, 24, any, keep
  ld r8, r15, 32, any, keep
  ld r9, r15, 40, any, keep
  ld r10, r15, 48, any, keep
  ld r11, r15, 56, any, keep
  ld r14, r15, 64, any, keep
  ld r15, r15, 72, any, keep
  jmp r14
tenant_fputc:
  ;@ frame back - caller by 0
  out r0
  ldi r13, 255
  and r0, r0, r13
  jmp r14
tenant_putchar:
  ;@ frame back - caller by 0
  out r0
  ldi r13, 255
  and r0, r0, r13
  jmp r14
tenant_to_get:
  ;@ frame back - caller by 0
  lip r13, L20
  ld r12, r13, 0, any, keep
  br L22
tenant_from_get:
  lip r13, L20
  br L21
tenant_to_put:
  ;@ frame back - caller by 0
  lip r13, L23
  ld r12, r13, 0, any, keep
  br L24
tenant_from_put:
  lip r13, L23
  br L21
tenant_to_look:
  ;@ frame back - caller by 0
  lip r13, L25
  ld r12, r13, 0, any, keep
  br L26
tenant_from_look:
  lip r13, L25
  br L21
tenant_to_give_back:
  ;@ frame back - caller by 0
  lip r13, L27
  ld r12, r13, 0, any, keep
  br L28
tenant_from_give_back:
  lip r13, L27
  br L21
tenant_leave:
  ;@ frame back 40 caller by 56
L22:
  ldi r0, 0
L28:
  ldi r1, 0
L26:
  ldi r2, 0
L24:
  ldi r3, 0
  ldi r4, 0
  ldi r5, 0
  ldi r6, 0
  leai r15, r15, -56
  st r15, r7, 0, any, keep
  st r15, r8, 8, any, keep
  st r15, r9, 16, any, keep
  st r15, r10, 24, any, keep
  st r15, r11, 32, any, keep
  st r15, r14, 40, any, keep
  ld r7, r13, 16, any, keep
  self r8
  ldi r9, 3
  shl r8, r8, r9
  lea r7, r7, r8
  ld r8, r7, 0, any, keep
  st r15, r8, 48, any, keep
  st r7, r15, 0, any, keep
  ld r14, r13, 8, any, keep
  ldi r7, 0
  ldi r8, 0
  ldi r9, 0
  ldi r10, 0
  ldi r11, 0
  ldi r13, 0
  ldi r15, 0
  jmp r12
L21:
  ld r13, r13, 16, any, keep
  self r12
  ldi r14, 3
  shl r12, r12, r14
  lea r13, r13, r12
  ld r15, r13, 0, any, keep
  isptr r12, r15
  bz r12, L43
  ld r12, r15, 48, any, keep
  st r13, r12, 0, any, keep
  ld r7, r15, 0, any, keep
  ld r8, r15, 8, any, keep
  ld r9, r15, 16, any, keep
  ld r10, r15, 24, any, keep
  ld r11, r15, 32, any, keep
  ld r14, r15, 40, any, keep
  leai r15, r15, 56
  jmp r14
L43:
  halt
L20:
  .ptr eu door_get+16
  .ptr eu tenant_from_get
  .ptr rw tenant_calls+0
L23:
  .ptr eu door_put+16
  .ptr eu tenant_from_put
  .ptr rw tenant_calls+128
L25:
  .ptr eu door_look+16
  .ptr eu tenant_from_look
  .ptr rw tenant_calls+256
L27:
  .ptr eu door_give_back+16
  .ptr eu tenant_from_give_back
  .ptr rw tenant_calls+384
P_0: .ptr rw tenant_stdout+0
.segment tenant_stdout 3
  ;@ global stdout 8 at 0
  .ptr rw tenant_files+8
.segment tenant_files 4
  ;@ global files 12 at 4
  .fill 1
  .int 0x200000001
.segment tenant_calls 9
.segment tenant_stack 16
.thread 0 0 none xu start
.reg 15 ptr rw tenant_stack+65472
;@ type 1 base i8 long
;@ type 2 base i4 int
;@ type 3 base u8 unsigned long
;@ type 4 base i1 char
;@ type 5 array 20 4
