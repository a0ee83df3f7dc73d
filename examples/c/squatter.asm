.segment squatter_text 12
start:
  ldi r0, 1
  ldi r1, 0
  lip r14, 2
  br squatter_main
  halt
squatter_main:
  ;@ function main at examples/c/squatter.c:9
  ;@ inlined 1 say at examples/c/squatter.c:18
  ;@ inlined 2 say_number at examples/c/squatter.c:14
  ;@ inlined 3 say at examples/c/squatter.c:15
  ;@ frame back 56 caller at 64
  ;@ local digits 20 at 104 log 5 type 6 in 2
  ldi r13, 31
  and r13, r15, r13
  ldi r12, -128
  sub r13, r12, r13
  lea r12, r15, r13
  st r12, r15, 64, any, keep
  mov r15, r12
  st r15, r7, 16, any, keep
  st r15, r8, 24, any, keep
  st r15, r9, 32, any, keep
  st r15, r10, 40, any, keep
  st r15, r11, 48, any, keep
  st r15, r14, 56, any, keep
  leai r10, r15, 104
  ldi r14, 5
  subseg r10, r10, r14
  ldi r11, 10
  ldi r9, 32
  ;@ line examples/c/squatter.c:11
  lip r14, 2
  br squatter_to_get
  st r15, r0, 8, any, keep
  ;@ var mine 1 s8
  ;@ var block 1 -1
  ldi r12, -1
  st r15, r12, 0, any, keep
  ;@ line examples/c/squatter.c:12
  br L3
L2:
  ;@ line examples/c/squatter.c:17
  ;@ var block 1 -
  ld r0, r15, 8, any, keep
  ldi r1, 0
  lip r2, P_0
  ld r2, r2, 0, any, keep
  lip r14, 2
  br squatter_to_put
  ;@ line examples/c/squatter.c:18
  ld r0, r15, 8, any, keep
  ldi r1, 0
  lip r14, 2
  br squatter_to_look
  ;@ var mine 1 -
  isptr r0, r0
  lip r4, P_1
  ld r4, r4, 0, any, keep
  bnz r0, L23
  lip r4, P_2
  ld r4, r4, 0, any, keep
L23:
  ;@ line examples/c/say.h:8 in 1
  ;@ var text 2 r4+0 in 1
  lip r12, P_3
  ld r12, r12, 0, any, keep
  ld r3, r12, 0, any, keep
  ldi r13, 0
  add r2, r4, r13
  isptr r0, r4
  bz r0, L24
  ldi r0, 54
  shr r0, r4, r0
  ldi r1, 320
  ltu r1, r0, r1
  bz r1, L24
  xor r1, r2, r4
  shr r1, r1, r0
  bnz r1, L24
  lea r2, r4, r13
L24:
  ;@ var text 2 - in 1
  mov r0, r2
  mov r1, r3
  lip r14, 2
  br squatter_fputs
  ;@ line examples/c/squatter.c:19
  ldi r0, 0
  ld r7, r15, 16, any, keep
  ld r8, r15, 24, any, keep
  ld r9, r15, 32, any, keep
  ld r10, r15, 40, any, keep
  ld r11, r15, 48, any, keep
  ld r14, r15, 56, any, keep
  ld r15, r15, 64, any, keep
  jmp r14
L3:
  ;@ line examples/c/squatter.c:13
  ;@ var mine 1 s8
  ;@ var block 1 s0
  ld r12, r15, 0, any, keep
  ld r13, r15, 8, any, keep
  eq r0, r12, r13
  bnz r0, L11
L4:
  ;@ line examples/c/squatter.c:14
  ld r0, r15, 0, any, keep
  ldi r1, 1
  lip r14, 2
  br squatter_to_look
  ;@ line examples/c/say.h:15 in 2
  ;@ var number 1 r0 in 2
  ;@ var length 4 0 in 2
  ldi r12, 0
  sub r2, r12, r0
  ldi r13, 0
  lts r1, r0, r13
  mov r7, r2
  bnz r1, L25
  mov r7, r0
L25:
  ;@ line examples/c/say.h:16 in 2
  ;@ var rest 5 r7 in 2
  ldi r13, 0
  lts r0, r0, r13
  ;@ var number 1 - in 2
  bz r0, L6
L5:
  ;@ line examples/c/say.h:17 in 2
  ldi r0, 45
  lip r14, 2
  br squatter_putchar
L6:
  ldi r1, 0
L7:
  ;@ line examples/c/say.h:20 in 2
  ;@ var length 4 r1 in 2
  divu r5, r7, r11
  mul r0, r5, r11
  sub r0, r7, r0
  ;@ line examples/c/say.h:19 in 2
  ldi r13, 48
  or r4, r0, r13
  addi r8, r1, 1
  shl r0, r8, r9
  sar r6, r0, r9
  ;@ var length 4 r8 in 2
  addi r1, r1, 8
  ldi r13, -8
  and r0, r1, r13
  leab r3, r10, r0
  ldi r13, 3
  shl r2, r1, r13
  ld r1, r3, 0, any, keep
  shr r0, r1, r2
  xor r0, r0, r4
  ldi r13, 255
  and r0, r0, r13
  shl r0, r0, r2
  xor r0, r1, r0
  st r3, r0, 0, any, keep
  ;@ var rest 5 r5 in 2
  ltu r0, r7, r11
  bnz r0, L8
L19:
  ;@ var length 4 r6 in 2
  mov r1, r6
  ;@ var length 4 - in 2
  mov r7, r5
  ;@ var rest 5 - in 2
  br L7
L8:
  ;@ line examples/c/say.h:21 in 2
  ;@ var length 4 r8 in 2
  bz r6, L10
L9:
  ;@ line examples/c/say.h:22 in 2
  addi r8, r8, -1
  ;@ var length 4 - in 2
  shl r0, r8, r9
  sar r7, r0, r9
  ;@ var length 4 r8 in 2
  addi r1, r7, 8
  ldi r13, -8
  and r0, r1, r13
  leab r0, r10, r0
  ldi r13, 3
  shl r1, r1, r13
  ld r0, r0, 0, any, keep
  shr r0, r0, r1
  ldi r13, 56
  shl r0, r0, r13
  ldi r13, 56
  sar r0, r0, r13
  lip r14, 2
  br squatter_putchar
  ;@ line examples/c/say.h:21 in 2
  bnz r7, L9
L10:
  ;@ line examples/c/say.h:8 in 3
  ;@ var length 4 - in 2
  lip r12, P_3
  ld r12, r12, 0, any, keep
  ld r1, r12, 0, any, keep
  mov r0, r9
  lip r14, 2
  br squatter_fputc
L11:
  ;@ line examples/c/squatter.c:12
  ld r12, r15, 0, any, keep
  addi r12, r12, 1
  st r15, r12, 0, any, keep
  ld r12, r15, 0, any, keep
  ldi r13, 3
  eq r0, r12, r13
  bnz r0, L2
  br L3
squatter_fputs:
  ;@ frame back - caller by 16
  leai r15, r15, -16
  st r15, r7, 0, any, keep
  st r15, r8, 8, any, keep
  mov r5, r0
  ldi r6, 3
  ldi r4, 0
  ldi r7, 7
  ldi r3, 56
  ldi r8, 255
  and r0, r5, r7
  sub r0, r4, r0
  lea r0, r5, r0
  shl r1, r5, r6
  ld r0, r0, 0, any, keep
  shr r0, r0, r1
  shl r0, r0, r3
  sar r1, r0, r3
  and r0, r1, r8
  bz r0, L27
L29:
  mov r2, r4
  br L28
L27:
  mov r0, r4
  ld r7, r15, 0, any, keep
  ld r8, r15, 8, any, keep
  leai r15, r15, 16
  jmp r14
L28:
  out r1
  addi r2, r2, 1
  lea r1, r5, r2
  and r0, r1, r7
  sub r0, r4, r0
  lea r0, r1, r0
  shl r1, r1, r6
  ld r0, r0, 0, any, keep
  shr r0, r0, r1
  shl r0, r0, r3
  sar r1, r0, r3
  and r0, r1, r8
  bz r0, L27
  br L28
squatter_fputc:
  ;@ frame back - caller by 0
  out r0
  ldi r13, 255
  and r0, r0, r13
  jmp r14
squatter_putchar:
  ;@ frame back - caller by 0
  out r0
  ldi r13, 255
  and r0, r0, r13
  jmp r14
squatter_to_get:
  ;@ frame back - caller by 0
  lip r13, L12
  ld r12, r13, 0, any, keep
  br L14
squatter_from_get:
  lip r13, L12
  br L13
squatter_to_look:
  ;@ frame back - caller by 0
  lip r13, L15
  ld r12, r13, 0, any, keep
  br L16
squatter_from_look:
  lip r13, L15
  br L13
squatter_to_put:
  ;@ frame back - caller by 0
  lip r13, L17
  ld r12, r13, 0, any, keep
  br L18
squatter_from_put:
  lip r13, L17
  br L13
squatter_leave:
  ;@ frame back 40 caller by 56
L14:
  ldi r0, 0
  ldi r1, 0
L16:
  ldi r2, 0
L18:
  ldi r3, 0
  ldi r4, 0
  ldi r5, 0
  ldi r6, 0
  leai r15, r15, -56
  st r15, r7, 0, any, keep
  st r15, r8, 8, any, keep
  st r15, r9, 16, any, keep
  st r15, r10, 24, any, keep
  st r15, r11, 32, any, keep
  st r15, r14, 40, any, keep
  ld r7, r13, 16, any, keep
  self r8
  ldi r9, 3
  shl r8, r8, r9
  lea r7, r7, r8
  ld r8, r7, 0, any, keep
  st r15, r8, 48, any, keep
  st r7, r15, 0, any, keep
  ld r14, r13, 8, any, keep
  ldi r7, 0
  ldi r8, 0
  ldi r9, 0
  ldi r10, 0
  ldi r11, 0
  ldi r13, 0
  ldi r15, 0
  jmp r12
L13:
  ld r13, r13, 16, any, keep
  self r12
  ldi r14, 3
  shl r12, r12, r14
  lea r13, r13, r12
  ld r15, r13, 0, any, keep
  isptr r12, r15
  bz r12, L33
  ld r12, r15, 48, any, keep
  st r13, r12, 0, any, keep
  ld r7, r15, 0, any, keep
  ld r8, r15, 8, any, keep
  ld r9, r15, 16, any, keep
  ld r10, r15, 24, any, keep
  ld r11, r15, 32, any, keep
  ld r14, r15, 40, any, keep
  leai r15, r15, 56
  jmp r14
L33:
  halt
L12:
  .ptr eu door_get+16
  .ptr eu squatter_from_get
  .ptr rw squatter_calls+0
L15:
  .ptr eu door_look+16
  .ptr eu squatter_from_look
  .ptr rw squatter_calls+128
L17:
  .ptr eu door_put+16
  .ptr eu squatter_from_put
  .ptr rw squatter_calls+256
P_0: .ptr rw squatter_own+0
P_1: .ptr ro squatter__str_1+6
P_2: .ptr ro squatter__str_2+7
P_3: .ptr rw squatter_stdout+0
.segment squatter_stdout 3
  ;@ global stdout 8 at 0
  .ptr rw squatter_files+8
.segment squatter_own 3
  ;@ global own 8 at 0 type 1
.segment squatter__str_2 4
  ;@ unnamed at 7 constant
  .int 0x6100000000000000
  .int 0x7265626d756e20
.segment squatter__str_1 4
  ;@ unnamed at 6 constant
  .int 0x2061000000000000
  .int 0x7265746e696f70
.segment squatter_files 4
  ;@ global files 12 at 4
  .fill 1
  .int 0x200000001
.segment squatter_calls 9
.segment squatter_stack 16
.thread 1 1 none xu start
.reg 15 ptr rw squatter_stack+65472
;@ type 1 base i8 long
;@ type 2 pointer 3
;@ type 3 base i1 char
;@ type 4 base i4 int
;@ type 5 base u8 unsigned long
;@ type 6 array 20 3
