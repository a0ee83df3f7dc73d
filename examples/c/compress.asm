.segment text 13
start:
  ldi r0, 1
  ldi r1, 0
  lip r14, 2
  br main
  halt
main:
  ;@ function main at examples/c/compress.c:51
  ;@ inlined 1 pack at examples/c/compress.c:53
  ;@ inlined 2 unpack at examples/c/compress.c:54
  ;@ inlined 3 say_number at examples/c/compress.c:55
  ;@ inlined 4 say at examples/c/compress.c:56
  ;@ inlined 5 say_number at examples/c/compress.c:57
  ;@ inlined 6 say at examples/c/compress.c:58
  ;@ frame back 88 caller at 96
  ;@ local digits 20 at 136 log 5 type 9 in 5
  ;@ local digits 20 at 168 log 5 type 9 in 3
  ldi r13, 31
  and r13, r15, r13
  ldi r12, -192
  sub r13, r12, r13
  lea r12, r15, r13
  st r12, r15, 96, any, keep
  mov r15, r12
  st r15, r7, 48, any, keep
  st r15, r8, 56, any, keep
  st r15, r9, 64, any, keep
  st r15, r10, 72, any, keep
  st r15, r11, 80, any, keep
  st r15, r14, 88, any, keep
  leai r12, r15, 136
  ldi r14, 5
  subseg r12, r12, r14
  st r15, r12, 40, any, keep
  leai r12, r15, 168
  ldi r14, 5
  subseg r12, r12, r14
  st r15, r12, 32, any, keep
  ldi r8, 32
  lip r9, P_0
  ld r9, r9, 0, any, keep
  ldi r11, 250
  ;@ var from 1 @c_text in 1
  ;@ var size 3 178 in 1
  ;@ var at 3 0 in 1
  ;@ var made 3 0 in 1
  ldi r12, 0
  st r15, r12, 24, any, keep
  ldi r12, 0
  st r15, r12, 0, any, keep
L2:
  ;@ line examples/c/compress.c:17 in 1
  ;@ var made 3 s24 in 1
  ;@ var at 3 s0 in 1
  ;@ var back 3 1 in 1
  ;@ var where 3 0 in 1
  ;@ var best 3 0 in 1
  ldi r12, 0
  ld r13, r15, 0, any, keep
  lts r0, r12, r13
  bnz r0, L3
L34:
  ldi r3, 0
  ldi r2, 0
  br L5
L3:
  ld r12, r15, 0, any, keep
  ldi r13, 178
  lts r1, r12, r13
  ldi r0, 178
  bnz r1, L55
  ld r0, r15, 0, any, keep
L55:
  ld r13, r15, 0, any, keep
  sub r1, r0, r13
  shl r0, r1, r8
  sar r7, r0, r8
  ldi r13, 0
  ldhi r13, 4294967295
  and r6, r1, r13
  ld r12, r15, 0, any, keep
  addi r1, r12, -1
  shl r0, r1, r8
  sar r0, r0, r8
  ldi r13, 0
  ldhi r13, 4294967295
  and r0, r1, r13
  ldi r13, 254
  ltu r1, r0, r13
  bnz r1, L56
  ldi r0, 254
L56:
  shl r0, r0, r8
  sar r0, r0, r8
  addi r12, r0, 1
  st r15, r12, 16, any, keep
  ldi r5, 1
  ldi r12, 0
  st r15, r12, 8, any, keep
  ldi r10, 0
L4:
  ;@ var back 3 r5 in 1
  ;@ var where 3 s8 in 1
  ;@ var best 3 r10 in 1
  ;@ var same 3 0 in 1
  ldi r3, 0
  ;@ line examples/c/compress.c:19 in 1
  br L6
L5:
  ;@ line examples/c/compress.c:24 in 1
  ;@ var back 3 - in 1
  ;@ var where 3 - in 1
  ;@ var best 3 - in 1
  ;@ var same 3 - in 1
  ldi r12, 3
  lts r0, r12, r3
  bnz r0, L11
  br L12
L6:
  ;@ line examples/c/compress.c:19 in 1
  ;@ var back 3 r5 in 1
  ;@ var where 3 s8 in 1
  ;@ var best 3 r10 in 1
  ;@ var same 3 r3 in 1
  ld r12, r15, 0, any, keep
  add r2, r12, r3
  shl r0, r2, r8
  sar r1, r0, r8
  eq r0, r3, r6
  bz r0, L7
L35:
  ;@ var same 3 - in 1
  mov r0, r7
  br L10
L7:
  ;@ var same 3 r3 in 1
  addi r1, r1, 72
  ldi r13, -8
  and r0, r1, r13
  leab r0, r9, r0
  ldi r13, 3
  shl r1, r1, r13
  ld r0, r0, 0, any, keep
  shr r0, r0, r1
  ldi r13, 255
  and r4, r0, r13
  sub r0, r2, r5
  shl r0, r0, r8
  sar r0, r0, r8
  addi r1, r0, 72
  ldi r13, -8
  and r0, r1, r13
  leab r0, r9, r0
  ldi r13, 3
  shl r1, r1, r13
  ld r0, r0, 0, any, keep
  shr r0, r0, r1
  ldi r13, 255
  and r0, r0, r13
  eq r0, r4, r0
  bz r0, L9
L8:
  ;@ line examples/c/compress.c:20 in 1
  addi r3, r3, 1
  ;@ line examples/c/compress.c:19 in 1
  eq r0, r3, r11
  bz r0, L6
L36:
  ;@ var same 3 - in 1
  mov r0, r11
  br L10
L9:
  ;@ var same 3 r3 in 1
  shl r0, r3, r8
  ;@ var same 3 - in 1
  sar r0, r0, r8
L10:
  ;@ line examples/c/compress.c:21 in 1
  lts r1, r10, r0
  mov r3, r0
  bnz r1, L57
  mov r3, r10
L57:
  lts r0, r10, r0
  ;@ var best 3 - in 1
  mov r2, r5
  bnz r0, L58
  ld r2, r15, 8, any, keep
L58:
  ;@ line examples/c/compress.c:17 in 1
  ;@ var best 3 r3 in 1
  ;@ var where 3 r2 in 1
  addi r1, r5, 1
  ;@ var back 3 r1 in 1
  ld r13, r15, 16, any, keep
  eq r0, r5, r13
  bnz r0, L5
L39:
  mov r5, r1
  ;@ var back 3 - in 1
  st r15, r2, 8, any, keep
  ;@ var where 3 - in 1
  mov r10, r3
  ;@ var best 3 - in 1
  br L4
L11:
  ;@ line examples/c/compress.c:25 in 1
  ld r12, r15, 24, any, keep
  addi r0, r12, 1
  shl r0, r0, r8
  sar r7, r0, r8
  ;@ var made 3 r7 in 1
  ld r12, r15, 24, any, keep
  ldi r13, -8
  and r0, r12, r13
  lip r12, P_1
  ld r12, r12, 0, any, keep
  leab r5, r12, r0
  ld r12, r15, 24, any, keep
  ldi r13, 3
  shl r4, r12, r13
  ld r1, r5, 0, any, keep
  shr r0, r1, r4
  ldi r13, 0
  xor r0, r0, r13
  ldi r13, 255
  and r0, r0, r13
  shl r0, r0, r4
  xor r0, r1, r0
  st r5, r0, 0, any, keep
  ;@ line examples/c/compress.c:26 in 1
  ld r12, r15, 24, any, keep
  addi r0, r12, 2
  shl r0, r0, r8
  sar r6, r0, r8
  ;@ var made 3 r6 in 1
  ldi r13, -8
  and r0, r7, r13
  lip r12, P_1
  ld r12, r12, 0, any, keep
  leab r5, r12, r0
  ldi r13, 3
  shl r4, r7, r13
  ld r1, r5, 0, any, keep
  shr r0, r1, r4
  xor r0, r0, r2
  ldi r13, 255
  and r0, r0, r13
  shl r0, r0, r4
  xor r0, r1, r0
  st r5, r0, 0, any, keep
  ;@ var at 3 - in 1
  ;@ var made 3 - in 1
  mov r4, r3
  ;@ line examples/c/compress.c:29 in 1
  br L13
L12:
  ;@ line examples/c/compress.c:30 in 1
  ;@ var made 3 s24 in 1
  ;@ var at 3 s0+1 in 1
  ld r12, r15, 0, any, keep
  addi r1, r12, 72
  ldi r13, -8
  and r0, r1, r13
  leab r0, r9, r0
  ldi r13, 3
  shl r1, r1, r13
  ld r0, r0, 0, any, keep
  shr r4, r0, r1
  ;@ var made 3 s24+1 in 1
  ld r6, r15, 24, any, keep
  ;@ var made 3 - in 1
  ldi r3, 1
L13:
  ;@ var at 3 - in 1
  ldi r13, -8
  and r0, r6, r13
  lip r12, P_1
  ld r12, r12, 0, any, keep
  leab r5, r12, r0
  ldi r13, 3
  shl r2, r6, r13
  ld r1, r5, 0, any, keep
  shr r0, r1, r2
  xor r0, r0, r4
  ldi r13, 255
  and r0, r0, r13
  shl r0, r0, r2
  xor r0, r1, r0
  st r5, r0, 0, any, keep
  addi r0, r6, 1
  shl r0, r0, r8
  sar r12, r0, r8
  st r15, r12, 24, any, keep
  ld r13, r15, 0, any, keep
  add r0, r3, r13
  shl r0, r0, r8
  sar r12, r0, r8
  st r15, r12, 0, any, keep
  ;@ line examples/c/compress.c:15 in 1
  ;@ var made 3 s24 in 1
  ;@ var at 3 s0 in 1
  ld r12, r15, 0, any, keep
  ldi r13, 178
  lts r0, r12, r13
  bnz r0, L2
L14:
  ;@ line examples/c/compress.c:39 in 2
  ;@ var at 3 - in 1
  ;@ var size 3 s24
  ;@ var size 3 s24 in 2
  ;@ var to 4 @unpacked in 2
  ;@ var made 3 0 in 2
  ;@ var at 3 0 in 2
  ldi r13, 2147483647
  ltu r0, r6, r13
  bnz r0, L41
L42:
  ldi r7, 0
  br L22
L41:
  ldi r5, 0
  ldi r7, 0
L15:
  ;@ line examples/c/compress.c:40 in 2
  ;@ var at 3 r5 in 2
  ;@ var made 3 r7 in 2
  ldi r13, -8
  and r0, r5, r13
  lip r12, P_1
  ld r12, r12, 0, any, keep
  leab r0, r12, r0
  ldi r13, 3
  shl r1, r5, r13
  ld r0, r0, 0, any, keep
  shr r0, r0, r1
  ldi r13, 255
  and r4, r0, r13
  bnz r4, L18
L16:
  addi r0, r5, 2
  shl r0, r0, r8
  sar r1, r0, r8
  ldi r13, -8
  and r0, r1, r13
  lip r12, P_1
  ld r12, r12, 0, any, keep
  leab r0, r12, r0
  ldi r13, 3
  shl r1, r1, r13
  ld r0, r0, 0, any, keep
  shr r0, r0, r1
  ldi r13, 255
  and r2, r0, r13
  ;@ line examples/c/compress.c:44 in 2
  ;@ var i 3 0 in 2
  bz r2, L20
L17:
  addi r0, r5, 1
  shl r0, r0, r8
  sar r1, r0, r8
  ldi r13, -8
  and r0, r1, r13
  lip r12, P_1
  ld r12, r12, 0, any, keep
  leab r0, r12, r0
  ldi r13, 3
  shl r1, r1, r13
  ld r0, r0, 0, any, keep
  shr r0, r0, r1
  ldi r13, 255
  and r10, r0, r13
  add r0, r7, r2
  shl r0, r0, r8
  sar r6, r0, r8
  ;@ var made 3 - in 2
  br L21
L18:
  ;@ line examples/c/compress.c:41 in 2
  ;@ var i 3 - in 2
  ;@ var made 3 r7 in 2
  addi r0, r5, 1
  ;@ var at 3 - in 2
  shl r0, r0, r8
  sar r5, r0, r8
  ;@ var at 3 r5 in 2
  addi r0, r7, 1
  shl r0, r0, r8
  sar r6, r0, r8
  ;@ var made 3 r6 in 2
  addi r1, r7, 72
  ldi r13, -8
  and r0, r1, r13
  lip r12, P_2
  ld r12, r12, 0, any, keep
  leab r3, r12, r0
  ldi r13, 3
  shl r2, r1, r13
  ld r1, r3, 0, any, keep
  shr r0, r1, r2
  xor r0, r0, r4
  ldi r13, 255
  and r0, r0, r13
  shl r0, r0, r2
  xor r0, r1, r0
  st r3, r0, 0, any, keep
  mov r7, r6
L19:
  ;@ line examples/c/compress.c:39 in 2
  ;@ var made 3 r7 in 2
  ld r13, r15, 24, any, keep
  lts r0, r5, r13
  bnz r0, L15
  br L22
L20:
  ;@ line examples/c/compress.c:46 in 2
  ;@ var made 3 - in 2
  addi r0, r5, 3
  ;@ var at 3 - in 2
  shl r0, r0, r8
  sar r5, r0, r8
  ;@ line examples/c/compress.c:39 in 2
  br L19
L21:
  ;@ line examples/c/compress.c:45 in 2
  ;@ var at 3 r5 in 2
  ;@ var made 3 r7 in 2
  sub r0, r7, r10
  shl r0, r0, r8
  sar r0, r0, r8
  addi r1, r0, 72
  ldi r13, -8
  and r0, r1, r13
  lip r12, P_2
  ld r12, r12, 0, any, keep
  leab r0, r12, r0
  ldi r13, 3
  shl r1, r1, r13
  ld r0, r0, 0, any, keep
  shr r4, r0, r1
  addi r1, r7, 72
  ldi r13, -8
  and r0, r1, r13
  lip r12, P_2
  ld r12, r12, 0, any, keep
  leab r3, r12, r0
  ldi r13, 3
  shl r2, r1, r13
  ld r1, r3, 0, any, keep
  shr r0, r1, r2
  xor r0, r0, r4
  ldi r13, 255
  and r0, r0, r13
  shl r0, r0, r2
  xor r0, r1, r0
  st r3, r0, 0, any, keep
  ;@ line examples/c/compress.c:44 in 2
  addi r0, r7, 1
  ;@ var made 3 - in 2
  shl r0, r0, r8
  sar r7, r0, r8
  ;@ var made 3 r7 in 2
  eq r0, r7, r6
  bnz r0, L20
  br L21
L22:
  ;@ var at 3 - in 2
  ;@ var made 3 - in 2
  ;@ var back 3 r7
  ;@ var number 5 178 in 3
  ;@ var length 3 0 in 3
  ;@ var rest 6 178 in 3
  ldi r2, 0
  ldi r1, 178
L23:
  ;@ line examples/c/say.h:20 in 3
  ;@ var rest 6 r1 in 3
  ;@ var length 3 r2 in 3
  ldi r13, 10
  divu r6, r1, r13
  ldi r13, 10
  mul r0, r6, r13
  sub r0, r1, r0
  ;@ line examples/c/say.h:19 in 3
  ;@ var rest 6 - in 3
  ldi r13, 48
  or r4, r0, r13
  addi r5, r2, 1
  ;@ var length 3 r5 in 3
  addi r1, r2, 8
  ldi r13, -8
  and r0, r1, r13
  ld r12, r15, 32, any, keep
  leab r3, r12, r0
  ldi r13, 3
  shl r2, r1, r13
  ld r1, r3, 0, any, keep
  shr r0, r1, r2
  xor r0, r0, r4
  ldi r13, 255
  and r0, r0, r13
  shl r0, r0, r2
  xor r0, r1, r0
  st r3, r0, 0, any, keep
  ;@ var rest 6 r6 in 3
  ldi r13, 3
  eq r0, r5, r13
  bnz r0, L48
L49:
  mov r2, r5
  ;@ var length 3 - in 3
  mov r1, r6
  ;@ var rest 6 - in 3
  br L23
L48:
  ldi r10, 3
L24:
  ;@ line examples/c/say.h:22 in 3
  ;@ var length 3 r10 in 3
  addi r10, r10, -1
  addi r1, r10, 8
  ldi r13, -8
  and r0, r1, r13
  ld r12, r15, 32, any, keep
  leab r0, r12, r0
  ldi r13, 3
  shl r1, r1, r13
  ld r0, r0, 0, any, keep
  shr r0, r0, r1
  ldi r13, 56
  shl r0, r0, r13
  ldi r13, 56
  sar r0, r0, r13
  lip r14, 2
  br putchar
  ;@ line examples/c/say.h:21 in 3
  bnz r10, L24
L25:
  ;@ line examples/c/say.h:8 in 4
  ;@ var length 3 - in 3
  ;@ var text 7 @_str in 4
  lip r12, P_3
  ld r12, r12, 0, any, keep
  ld r3, r12, 0, any, keep
  lip r0, P_4
  ld r0, r0, 0, any, keep
  ldi r1, 14
  ldi r2, 1
  lip r14, 2
  br fwrite
  ;@ line examples/c/say.h:15 in 5
  ;@ var number 5 s24 in 5
  ;@ var length 3 0 in 5
  ldi r12, 0
  ld r13, r15, 24, any, keep
  sub r1, r12, r13
  ld r12, r15, 24, any, keep
  ldi r13, 0
  lts r0, r12, r13
  mov r10, r1
  bnz r0, L59
  ld r10, r15, 24, any, keep
L59:
  ;@ line examples/c/say.h:16 in 5
  ;@ var rest 6 r10 in 5
  ld r12, r15, 24, any, keep
  ldi r13, 0
  lts r0, r12, r13
  ;@ var made 3 - in 1
  ;@ var size 3 -
  ;@ var size 3 - in 2
  ;@ var number 5 - in 5
  bz r0, L27
L26:
  ;@ line examples/c/say.h:17 in 5
  ldi r0, 45
  lip r14, 2
  br putchar
L27:
  ldi r1, 0
L28:
  ;@ line examples/c/say.h:20 in 5
  ;@ var length 3 r1 in 5
  ldi r13, 10
  divu r5, r10, r13
  ldi r13, 10
  mul r0, r5, r13
  sub r0, r10, r0
  ;@ line examples/c/say.h:19 in 5
  ldi r13, 48
  or r4, r0, r13
  addi r11, r1, 1
  shl r0, r11, r8
  sar r6, r0, r8
  ;@ var length 3 r11 in 5
  addi r1, r1, 8
  ldi r13, -8
  and r0, r1, r13
  ld r12, r15, 40, any, keep
  leab r3, r12, r0
  ldi r13, 3
  shl r2, r1, r13
  ld r1, r3, 0, any, keep
  shr r0, r1, r2
  xor r0, r0, r4
  ldi r13, 255
  and r0, r0, r13
  shl r0, r0, r2
  xor r0, r1, r0
  st r3, r0, 0, any, keep
  ;@ var rest 6 r5 in 5
  ldi r13, 10
  ltu r0, r10, r13
  bnz r0, L29
L51:
  ;@ var length 3 r6 in 5
  mov r1, r6
  ;@ var length 3 - in 5
  mov r10, r5
  ;@ var rest 6 - in 5
  br L28
L29:
  ;@ line examples/c/say.h:21 in 5
  ;@ var length 3 r11 in 5
  bz r6, L31
L30:
  ;@ line examples/c/say.h:22 in 5
  addi r11, r11, -1
  ;@ var length 3 - in 5
  shl r0, r11, r8
  sar r10, r0, r8
  ;@ var length 3 r11 in 5
  addi r1, r10, 8
  ldi r13, -8
  and r0, r1, r13
  ld r12, r15, 40, any, keep
  leab r0, r12, r0
  ldi r13, 3
  shl r1, r1, r13
  ld r0, r0, 0, any, keep
  shr r0, r0, r1
  ldi r13, 56
  shl r0, r0, r13
  ldi r13, 56
  sar r0, r0, r13
  lip r14, 2
  br putchar
  ;@ line examples/c/say.h:21 in 5
  bnz r10, L30
L31:
  ;@ line examples/c/compress.c:58
  ;@ var length 3 - in 5
  ldi r13, 178
  eq r0, r7, r13
  ;@ var back 3 -
  bnz r0, L32
L54:
  ldi r5, 0
  lip r4, P_5
  ld r4, r4, 0, any, keep
  br L33
L32:
  mov r0, r9
  lip r1, P_2
  ld r1, r1, 0, any, keep
  ldi r2, 178
  lip r14, 2
  br memcmp
  lip r4, P_5
  ld r4, r4, 0, any, keep
  bnz r0, L60
  lip r4, P_6
  ld r4, r4, 0, any, keep
L60:
  ldi r5, 0
L33:
  ;@ line examples/c/say.h:8 in 6
  ;@ var text 7 r4+r5 in 6
  lip r12, P_3
  ld r12, r12, 0, any, keep
  ld r3, r12, 0, any, keep
  add r2, r4, r5
  isptr r0, r4
  bz r0, L61
  ldi r0, 54
  shr r0, r4, r0
  xor r1, r2, r4
  shr r1, r1, r0
  bnz r1, L61
  lea r2, r4, r5
L61:
  ;@ var text 7 - in 6
  mov r0, r2
  mov r1, r3
  lip r14, 2
  br fputs
  ;@ line examples/c/compress.c:59
  ldi r0, 0
  ld r7, r15, 48, any, keep
  ld r8, r15, 56, any, keep
  ld r9, r15, 64, any, keep
  ld r10, r15, 72, any, keep
  ld r11, r15, 80, any, keep
  ld r14, r15, 88, any, keep
  ld r15, r15, 96, any, keep
  jmp r14
fputs:
  ;@ frame back - caller by 16
  leai r15, r15, -16
  st r15, r7, 0, any, keep
  st r15, r8, 8, any, keep
  mov r5, r0
  ldi r6, 3
  ldi r4, 0
  ldi r7, 7
  ldi r3, 56
  ldi r8, 255
  and r0, r5, r7
  sub r0, r4, r0
  lea r0, r5, r0
  shl r1, r5, r6
  ld r0, r0, 0, any, keep
  shr r0, r0, r1
  shl r0, r0, r3
  sar r1, r0, r3
  and r0, r1, r8
  bz r0, L63
L65:
  mov r2, r4
  br L64
L63:
  mov r0, r4
  ld r7, r15, 0, any, keep
  ld r8, r15, 8, any, keep
  leai r15, r15, 16
  jmp r14
L64:
  out r1
  addi r2, r2, 1
  lea r1, r5, r2
  and r0, r1, r7
  sub r0, r4, r0
  lea r0, r1, r0
  shl r1, r1, r6
  ld r0, r0, 0, any, keep
  shr r0, r0, r1
  shl r0, r0, r3
  sar r1, r0, r3
  and r0, r1, r8
  bz r0, L63
  br L64
memcmp:
  ;@ frame back - caller by 32
  leai r15, r15, -32
  st r15, r7, 0, any, keep
  st r15, r8, 8, any, keep
  st r15, r9, 16, any, keep
  st r15, r10, 24, any, keep
  mov r9, r0
  mov r10, r1
  mov r8, r2
  ldi r5, 3
  ldi r4, 0
  ldi r6, 7
  ldi r7, 255
  bz r8, L72
L73:
  mov r2, r4
  br L69
L72:
  mov r0, r4
  br L71
L68:
  eq r0, r2, r8
  bz r0, L69
L74:
  mov r0, r4
  br L71
L69:
  lea r1, r9, r2
  and r0, r1, r6
  sub r0, r4, r0
  lea r0, r1, r0
  shl r1, r1, r5
  ld r0, r0, 0, any, keep
  shr r0, r0, r1
  and r3, r0, r7
  lea r1, r10, r2
  and r0, r1, r6
  sub r0, r4, r0
  lea r0, r1, r0
  shl r1, r1, r5
  ld r0, r0, 0, any, keep
  shr r0, r0, r1
  and r1, r0, r7
  addi r2, r2, 1
  eq r0, r3, r1
  bnz r0, L68
L70:
  ltu r1, r3, r1
  ldi r0, -1
  bnz r1, L71
  ldi r0, 1
L76:
L71:
  ld r7, r15, 0, any, keep
  ld r8, r15, 8, any, keep
  ld r9, r15, 16, any, keep
  ld r10, r15, 24, any, keep
  leai r15, r15, 32
  jmp r14
fwrite:
  ;@ frame back - caller by 24
  leai r15, r15, -24
  st r15, r7, 0, any, keep
  st r15, r8, 8, any, keep
  st r15, r9, 16, any, keep
  mov r5, r0
  mov r9, r2
  mov r0, r3
  ldi r7, 3
  ldi r6, 0
  ldi r8, 7
  ldi r3, 56
  mul r4, r9, r1
  bz r4, L78
L80:
  mov r2, r6
  br L79
L78:
  mov r0, r9
  ld r7, r15, 0, any, keep
  ld r8, r15, 8, any, keep
  ld r9, r15, 16, any, keep
  leai r15, r15, 24
  jmp r14
L79:
  lea r1, r5, r2
  and r0, r1, r8
  sub r0, r6, r0
  lea r0, r1, r0
  shl r1, r1, r7
  ld r0, r0, 0, any, keep
  shr r0, r0, r1
  shl r0, r0, r3
  sar r0, r0, r3
  out r0
  addi r2, r2, 1
  eq r0, r2, r4
  bnz r0, L78
  br L79
putchar:
  ;@ frame back - caller by 0
  out r0
  ldi r13, 255
  and r0, r0, r13
  jmp r14
P_0: .ptr ro c_text+72
P_1: .ptr rw packed+0
P_2: .ptr rw unpacked+72
P_3: .ptr rw stdout+0
P_4: .ptr ro _str+1
P_5: .ptr ro _str_2+0
P_6: .ptr ro _str_1+9
.segment c_text 8
  ;@ global text 179 at 72 type 10 constant
  .fill 9
  .int 0x65746e696f702061
  .int 0x2061207361682072
  .int 0x697373696d726570
  .int 0x65732061202c6e6f
  .int 0x6e6120746e656d67
  .int 0x646461206e612064
  .int 0x2061203b73736572
  .int 0x207265746e696f70
  .int 0x61656c2074616874
  .int 0x2073746920736576
  .int 0x20746e656d676573
  .int 0x6f70206f6e207369
  .int 0x61202c7265746e69
  .int 0x696f70206120646e
  .int 0x616874207265746e
  .int 0x6f6e207361682074
  .int 0x7373696d72657020
  .int 0x6c206f74206e6f69
  .int 0x612073692064616f
  .int 0x7265746e696f7020
  .int 0x6163207461687420
  .int 0x616f6c20746f6e6e
  .int 0x2e64
.segment packed 9
  ;@ global packed 512 at 0 type 11
.segment unpacked 8
  ;@ global unpacked 179 at 72 type 12
.segment stdout 3
  ;@ global stdout 8 at 0
  .ptr rw files+8
.segment _str 4
  ;@ unnamed at 1 constant
  .int 0x2073657479622000
  .int 0x20656d6f636562
.segment _str_1 5
  ;@ unnamed at 9 constant
  .fill 1
  .int 0x6320646e61202c00
  .int 0x6b63616220656d6f
  .int 0xa656c6f687720
.segment _str_2 4
  ;@ unnamed at 0 constant
  .int 0x726120646e61202c
  .int 0xa74736f6c2065
.segment files 4
  ;@ global files 12 at 4
  .fill 1
  .int 0x200000001
.segment stack 16
.thread 0 0 none xu start
.reg 15 ptr rw stack+65472
;@ type 1 pointer 2
;@ type 2 base u1 unsigned char
;@ type 3 base i4 int
;@ type 4 pointer 2
;@ type 5 base i8 long
;@ type 6 base u8 unsigned long
;@ type 7 pointer 8
;@ type 8 base i1 char
;@ type 9 array 20 8
;@ type 10 array 179 8
;@ type 11 array 512 2
;@ type 12 array 179 2
