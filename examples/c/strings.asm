.segment text 14
start:
  ldi r0, 1
  ldi r1, 0
  lip r14, 2
  br main
  halt
main:
  ;@ function main at examples/c/strings.c:28
  ;@ inlined 1 say at examples/c/strings.c:32
  ;@ inlined 2 say at examples/c/strings.c:33
  ;@ inlined 3 turn_round at examples/c/strings.c:34
  ;@ inlined 4 say at examples/c/strings.c:35
  ;@ inlined 5 say at examples/c/strings.c:36
  ;@ inlined 6 say_number at examples/c/strings.c:37
  ;@ inlined 7 say at examples/c/strings.c:38
  ;@ inlined 8 is_palindrome at examples/c/strings.c:39
  ;@ inlined 9 say at examples/c/strings.c:39
  ;@ inlined 10 say_number at examples/c/strings.c:40
  ;@ inlined 11 say_number at examples/c/strings.c:41
  ;@ inlined 12 say at examples/c/strings.c:42
  ;@ frame back 56 caller at 64
  ;@ local letters 32 at 96 log 5 type 7 in 8
  ;@ local digits 20 at 136 log 5 type 8 in 6
  ;@ local room 32 at 160 log 5 type 7
  ldi r13, 31
  and r13, r15, r13
  ldi r12, -192
  sub r13, r12, r13
  lea r12, r15, r13
  st r12, r15, 64, any, keep
  mov r15, r12
  st r15, r7, 16, any, keep
  st r15, r8, 24, any, keep
  st r15, r9, 32, any, keep
  st r15, r10, 40, any, keep
  st r15, r11, 48, any, keep
  st r15, r14, 56, any, keep
  leai r12, r15, 96
  ldi r14, 5
  subseg r12, r12, r14
  st r15, r12, 0, any, keep
  leai r12, r15, 136
  ldi r14, 5
  subseg r12, r12, r14
  st r15, r12, 8, any, keep
  leai r9, r15, 160
  ldi r14, 5
  subseg r9, r9, r14
  lip r0, P_0
  ld r0, r0, 0, any, keep
  ldi r11, 32
  lip r10, P_1
  ld r10, r10, 0, any, keep
  ;@ line examples/c/strings.c:30
  ld r3, r0, 0, any, keep
  ld r2, r0, 8, any, keep
  ld r1, r0, 16, any, keep
  ld r0, r0, 24, any, keep
  st r15, r3, 160, any, keep
  st r15, r2, 168, any, keep
  st r15, r1, 176, any, keep
  st r15, r0, 184, any, keep
  ;@ line examples/c/strings.c:31
  mov r0, r9
  lip r14, 2
  br strlen
  mov r3, r0
  add r2, r9, r3
  isptr r0, r9
  bz r0, L30
  ldi r0, 54
  shr r0, r9, r0
  xor r1, r2, r9
  shr r1, r1, r0
  bnz r1, L30
  lea r2, r9, r3
L30:
  mov r0, r2
  lip r1, P_2
  ld r1, r1, 0, any, keep
  ldi r2, 9
  lip r14, 2
  br memcpy
  ;@ line examples/c/say.h:8 in 1
  ;@ var text 1 f160:5 in 1
  lip r12, P_3
  ld r12, r12, 0, any, keep
  ld r1, r12, 0, any, keep
  mov r0, r9
  lip r14, 2
  br fputs
  ;@ line examples/c/strings.c:33
  mov r0, r9
  lip r1, P_4
  ld r1, r1, 0, any, keep
  lip r14, 2
  br strstr
  mov r1, r0
  addi r0, r9, 8
  eq r0, r1, r0
  lip r4, P_5
  ld r4, r4, 0, any, keep
  bnz r0, L31
  lip r4, P_6
  ld r4, r4, 0, any, keep
L31:
  ;@ line examples/c/say.h:8 in 2
  ;@ var text 1 r4+0 in 2
  lip r12, P_3
  ld r12, r12, 0, any, keep
  ld r3, r12, 0, any, keep
  ldi r13, 0
  add r2, r4, r13
  isptr r0, r4
  bz r0, L32
  ldi r0, 54
  shr r0, r4, r0
  xor r1, r2, r4
  shr r1, r1, r0
  bnz r1, L32
  lea r2, r4, r13
L32:
  ;@ var text 1 - in 2
  mov r0, r2
  mov r1, r3
  lip r14, 2
  br fputs
  ;@ line examples/c/strings.c:8 in 3
  ;@ var text 3 f160:5 in 3
  ;@ var first 3 f160:5 in 3
  mov r0, r9
  lip r14, 2
  br strlen
  mov r1, r0
  ;@ var last 3 f160:5+r1+-1 in 3
  add r0, r9, r1
  addi r0, r0, -1
  ltu r0, r9, r0
  bz r0, L3
L19:
  addi r6, r1, -1
  ;@ var last 3 - in 3
  ldi r5, 0
L2:
  ;@ line examples/c/strings.c:9 in 3
  ;@ var first 3 f160:5+r5 in 3
  ldi r13, -8
  and r0, r5, r13
  leab r0, r9, r0
  ldi r13, 3
  shl r1, r5, r13
  ld r0, r0, 0, any, keep
  shr r7, r0, r1
  ;@ line examples/c/strings.c:10 in 3
  ;@ var kept 2 r7 in 3
  ldi r13, -8
  and r0, r6, r13
  leab r0, r9, r0
  ldi r13, 3
  shl r1, r6, r13
  ld r0, r0, 0, any, keep
  shr r4, r0, r1
  ldi r13, -8
  and r0, r5, r13
  leab r3, r9, r0
  ldi r13, 3
  shl r2, r5, r13
  ld r1, r3, 0, any, keep
  shr r0, r1, r2
  xor r0, r0, r4
  ldi r13, 255
  and r0, r0, r13
  shl r0, r0, r2
  xor r0, r1, r0
  st r3, r0, 0, any, keep
  ;@ line examples/c/strings.c:11 in 3
  ldi r13, -8
  and r0, r6, r13
  leab r3, r9, r0
  ldi r13, 3
  shl r2, r6, r13
  ld r1, r3, 0, any, keep
  shr r0, r1, r2
  xor r0, r0, r7
  ;@ var kept 2 - in 3
  ldi r13, 255
  and r0, r0, r13
  shl r0, r0, r2
  xor r0, r1, r0
  st r3, r0, 0, any, keep
  ;@ line examples/c/strings.c:8 in 3
  ;@ var first 3 f160:5+r5+1 in 3
  ;@ var last 3 f160:5+r6+-1 in 3
  add r0, r9, r5
  addi r1, r0, 1
  add r0, r9, r6
  addi r0, r0, -1
  ltu r0, r1, r0
  bz r0, L3
L20:
  addi r6, r6, -1
  ;@ var last 3 - in 3
  addi r5, r5, 1
  ;@ var last 3 f160:5+r6+-1 in 3
  br L2
L3:
  ;@ line examples/c/say.h:8 in 4
  ;@ var last 3 - in 3
  ;@ var first 3 - in 3
  ;@ var text 1 f160:5 in 4
  lip r12, P_3
  ld r12, r12, 0, any, keep
  ld r1, r12, 0, any, keep
  mov r0, r9
  lip r14, 2
  br fputs
  ;@ line examples/c/say.h:8 in 5
  lip r12, P_3
  ld r12, r12, 0, any, keep
  ld r1, r12, 0, any, keep
  ldi r0, 10
  lip r14, 2
  br fputc
  ;@ line examples/c/strings.c:37
  mov r0, r9
  lip r14, 2
  br strlen
  ;@ line examples/c/say.h:15 in 6
  ;@ var number 4 r0 in 6
  ;@ var length 5 0 in 6
  ldi r12, 0
  sub r2, r12, r0
  ldi r13, 0
  lts r1, r0, r13
  mov r7, r2
  bnz r1, L33
  mov r7, r0
L33:
  ;@ line examples/c/say.h:16 in 6
  ;@ var rest 6 r7 in 6
  ldi r13, 0
  lts r0, r0, r13
  ;@ var number 4 - in 6
  bz r0, L5
L4:
  ;@ line examples/c/say.h:17 in 6
  ldi r0, 45
  lip r14, 2
  br putchar
L5:
  ldi r1, 0
L6:
  ;@ line examples/c/say.h:20 in 6
  ;@ var length 5 r1 in 6
  ldi r13, 10
  divu r5, r7, r13
  ldi r13, 10
  mul r0, r5, r13
  sub r0, r7, r0
  ;@ line examples/c/say.h:19 in 6
  ldi r13, 48
  or r4, r0, r13
  addi r8, r1, 1
  shl r0, r8, r11
  sar r6, r0, r11
  ;@ var length 5 r8 in 6
  addi r1, r1, 8
  ldi r13, -8
  and r0, r1, r13
  ld r12, r15, 8, any, keep
  leab r3, r12, r0
  ldi r13, 3
  shl r2, r1, r13
  ld r1, r3, 0, any, keep
  shr r0, r1, r2
  xor r0, r0, r4
  ldi r13, 255
  and r0, r0, r13
  shl r0, r0, r2
  xor r0, r1, r0
  st r3, r0, 0, any, keep
  ;@ var rest 6 r5 in 6
  ldi r13, 10
  ltu r0, r7, r13
  bnz r0, L7
L21:
  ;@ var length 5 r6 in 6
  mov r1, r6
  ;@ var length 5 - in 6
  mov r7, r5
  ;@ var rest 6 - in 6
  br L6
L7:
  ;@ line examples/c/say.h:21 in 6
  ;@ var length 5 r8 in 6
  bz r6, L9
L8:
  ;@ line examples/c/say.h:22 in 6
  addi r8, r8, -1
  ;@ var length 5 - in 6
  shl r0, r8, r11
  sar r7, r0, r11
  ;@ var length 5 r8 in 6
  addi r1, r7, 8
  ldi r13, -8
  and r0, r1, r13
  ld r12, r15, 8, any, keep
  leab r0, r12, r0
  ldi r13, 3
  shl r1, r1, r13
  ld r0, r0, 0, any, keep
  shr r0, r0, r1
  ldi r13, 56
  shl r0, r0, r13
  ldi r13, 56
  sar r0, r0, r13
  lip r14, 2
  br putchar
  ;@ line examples/c/say.h:21 in 6
  bnz r7, L8
L9:
  ;@ line examples/c/strings.c:38
  ;@ var length 5 - in 6
  mov r0, r9
  ldi r1, 122
  lip r14, 2
  br strchr
  lip r4, P_7
  ld r4, r4, 0, any, keep
  bnz r0, L34
  lip r4, P_8
  ld r4, r4, 0, any, keep
L34:
  ;@ line examples/c/say.h:8 in 7
  ;@ var text 1 r4+0 in 7
  lip r12, P_3
  ld r12, r12, 0, any, keep
  ld r3, r12, 0, any, keep
  ldi r13, 0
  add r2, r4, r13
  isptr r0, r4
  bz r0, L35
  ldi r0, 54
  shr r0, r4, r0
  xor r1, r2, r4
  shr r1, r1, r0
  bnz r1, L35
  lea r2, r4, r13
L35:
  ;@ var text 1 - in 7
  mov r0, r2
  mov r1, r3
  lip r14, 2
  br fputs
  ;@ var n 5 0 in 8
  ;@ var text 1 @_str_7 in 8
  ldi r8, 65
  ldi r7, 0
  ldi r9, 0
  ;@ line examples/c/strings.c:19 in 8
  br L12
L10:
  ;@ var text 1 - in 8
  ;@ var n 5 r5 in 8
  ldi r13, 63
  sar r1, r5, r13
  xor r0, r5, r1
  sub r0, r0, r1
  ldi r13, 2
  divu r0, r0, r13
  xor r0, r0, r1
  sub r6, r0, r1
  ;@ line examples/c/strings.c:22 in 8
  ;@ var i 5 0 in 8
  ldi r12, 1
  lts r2, r12, r5
  bz r2, L18
L11:
  ;@ line examples/c/strings.c:23 in 8
  ld r0, r15, 96, any, keep
  ldi r13, 255
  and r3, r0, r13
  addi r0, r5, -1
  shl r0, r0, r11
  sar r1, r0, r11
  ldi r13, -8
  and r0, r1, r13
  ld r12, r15, 0, any, keep
  leab r0, r12, r0
  ldi r13, 3
  shl r1, r1, r13
  ld r0, r0, 0, any, keep
  shr r0, r0, r1
  ldi r13, 255
  and r0, r0, r13
  ;@ var i 5 1 in 8
  eq r0, r3, r0
  bz r0, L18
L27:
  ldi r3, 1
  br L15
L12:
  ;@ line examples/c/strings.c:20 in 8
  ;@ var i 5 - in 8
  ;@ var n 5 r7 in 8
  ;@ var text 1 @_str_7+r9 in 8
  mov r0, r8
  lip r14, 2
  br isalpha
  bnz r0, L13
L24:
  mov r5, r7
  ;@ var n 5 - in 8
  br L14
L13:
  ;@ line examples/c/strings.c:21 in 8
  ;@ var n 5 r7 in 8
  mov r0, r8
  lip r14, 2
  br tolower
  mov r4, r0
  addi r0, r7, 1
  shl r0, r0, r11
  sar r5, r0, r11
  ;@ var n 5 r5 in 8
  ldi r13, -8
  and r0, r7, r13
  ld r12, r15, 0, any, keep
  leab r3, r12, r0
  ldi r13, 3
  shl r2, r7, r13
  ld r1, r3, 0, any, keep
  shr r0, r1, r2
  xor r0, r0, r4
  ldi r13, 255
  and r0, r0, r13
  shl r0, r0, r2
  xor r0, r1, r0
  st r3, r0, 0, any, keep
L14:
  ;@ line examples/c/strings.c:19 in 8
  ;@ var text 1 @_str_7+r9+1 in 8
  addi r1, r9, 2
  ldi r13, -8
  and r0, r1, r13
  leab r0, r10, r0
  ldi r13, 3
  shl r1, r1, r13
  ld r0, r0, 0, any, keep
  shr r0, r0, r1
  ldi r13, 255
  and r8, r0, r13
  add r0, r10, r9
  addi r1, r0, 1
  addi r0, r10, 30
  eq r0, r1, r0
  bnz r0, L10
L25:
  addi r9, r9, 1
  ;@ var text 1 - in 8
  mov r7, r5
  ;@ var n 5 - in 8
  ;@ var text 1 @_str_7+r9+1 in 8
  br L12
L15:
  ;@ line examples/c/strings.c:22 in 8
  ;@ var text 1 - in 8
  ;@ var n 5 r5 in 8
  ;@ var i 5 r3 in 8
  eq r0, r3, r6
  bnz r0, L17
L16:
  ;@ line examples/c/strings.c:23 in 8
  ldi r13, -8
  and r0, r3, r13
  ld r12, r15, 0, any, keep
  leab r0, r12, r0
  ldi r13, 3
  shl r1, r3, r13
  ld r0, r0, 0, any, keep
  shr r0, r0, r1
  ldi r13, 255
  and r4, r0, r13
  ldi r13, -1
  xor r0, r3, r13
  add r0, r5, r0
  shl r0, r0, r11
  sar r1, r0, r11
  ldi r13, -8
  and r0, r1, r13
  ld r12, r15, 0, any, keep
  leab r0, r12, r0
  ldi r13, 3
  shl r1, r1, r13
  ld r0, r0, 0, any, keep
  shr r0, r0, r1
  ldi r13, 255
  and r2, r0, r13
  ;@ line examples/c/strings.c:22 in 8
  addi r0, r3, 1
  shl r0, r0, r11
  sar r1, r0, r11
  ;@ line examples/c/strings.c:23 in 8
  ;@ var i 5 r1 in 8
  eq r0, r4, r2
  bz r0, L17
L29:
  mov r3, r1
  ;@ var i 5 - in 8
  br L15
L17:
  ;@ line examples/c/strings.c:22 in 8
  ;@ var n 5 - in 8
  lts r2, r3, r6
L18:
  ;@ line examples/c/strings.c:39
  lip r4, P_9
  ld r4, r4, 0, any, keep
  bnz r2, L36
  lip r4, P_10
  ld r4, r4, 0, any, keep
L36:
  ;@ line examples/c/say.h:8 in 9
  ;@ var text 1 r4+0 in 9
  lip r12, P_3
  ld r12, r12, 0, any, keep
  ld r3, r12, 0, any, keep
  ldi r13, 0
  add r2, r4, r13
  isptr r0, r4
  bz r0, L37
  ldi r0, 54
  shr r0, r4, r0
  xor r1, r2, r4
  shr r1, r1, r0
  bnz r1, L37
  lea r2, r4, r13
L37:
  ;@ var text 1 - in 9
  mov r0, r2
  mov r1, r3
  lip r14, 2
  br fputs
  ;@ line examples/c/say.h:17 in 10
  ;@ var number 4 -1 in 10
  ;@ var length 5 0 in 10
  ;@ var rest 6 1 in 10
  ldi r0, 45
  lip r14, 2
  br putchar
  ;@ line examples/c/say.h:22 in 10
  ;@ var rest 6 - in 10
  ldi r0, 49
  lip r14, 2
  br putchar
  ;@ line examples/c/say.h:22 in 11
  ;@ var number 4 0 in 11
  ;@ var length 5 0 in 11
  ldi r0, 48
  lip r14, 2
  br putchar
  ;@ line examples/c/say.h:8 in 12
  lip r12, P_3
  ld r12, r12, 0, any, keep
  ld r1, r12, 0, any, keep
  ldi r0, 10
  lip r14, 2
  br fputc
  ;@ line examples/c/strings.c:43
  ldi r0, 0
  ld r7, r15, 16, any, keep
  ld r8, r15, 24, any, keep
  ld r9, r15, 32, any, keep
  ld r10, r15, 40, any, keep
  ld r11, r15, 48, any, keep
  ld r14, r15, 56, any, keep
  ld r15, r15, 64, any, keep
  jmp r14
tolower:
  ;@ frame back - caller by 0
  mov r3, r0
  ldi r2, 32
  addi r0, r3, -91
  shl r0, r0, r2
  sar r1, r0, r2
  addi r0, r3, 32
  shl r0, r0, r2
  sar r2, r0, r2
  ldi r13, -26
  ltu r1, r1, r13
  mov r0, r3
  bnz r1, L39
  mov r0, r2
L39:
  jmp r14
isalpha:
  ;@ frame back - caller by 0
  ldi r1, 32
  ldi r13, -33
  and r0, r0, r13
  addi r0, r0, -65
  shl r0, r0, r1
  sar r0, r0, r1
  ldi r13, 26
  ltu r0, r0, r13
  jmp r14
strchr:
  ;@ frame back - caller by 16
  leai r15, r15, -16
  st r15, r7, 0, any, keep
  st r15, r8, 8, any, keep
  mov r4, r0
  ldi r5, 24
  ldi r2, 32
  ldi r7, 3
  ldi r6, 0
  ldi r8, 7
  ldi r3, 56
  shl r0, r1, r5
  shl r0, r0, r2
  sar r0, r0, r2
  sar r5, r0, r5
  and r0, r4, r8
  sub r0, r6, r0
  lea r0, r4, r0
  shl r1, r4, r7
  ld r0, r0, 0, any, keep
  shr r0, r0, r1
  shl r0, r0, r3
  sar r1, r0, r3
  eq r0, r5, r1
  bnz r0, L45
L46:
  mov r2, r6
  br L43
L45:
  mov r2, r6
  br L44
L42:
  lea r1, r4, r2
  and r0, r1, r8
  sub r0, r6, r0
  lea r0, r1, r0
  shl r1, r1, r7
  ld r0, r0, 0, any, keep
  shr r0, r0, r1
  shl r0, r0, r3
  sar r1, r0, r3
  eq r0, r5, r1
  bnz r0, L44
L43:
  addi r2, r2, 1
  bnz r1, L42
L47:
  mov r2, r6
  mov r4, r6
L44:
  add r3, r4, r2
  isptr r0, r4
  bz r0, L50
  ldi r0, 54
  shr r0, r4, r0
  xor r1, r3, r4
  shr r1, r1, r0
  bnz r1, L50
  lea r3, r4, r2
L50:
  mov r0, r3
  ld r7, r15, 0, any, keep
  ld r8, r15, 8, any, keep
  leai r15, r15, 16
  jmp r14
putchar:
  ;@ frame back - caller by 0
  out r0
  ldi r13, 255
  and r0, r0, r13
  jmp r14
fputc:
  ;@ frame back - caller by 0
  out r0
  ldi r13, 255
  and r0, r0, r13
  jmp r14
strstr:
  ;@ frame back - caller by 48
  leai r15, r15, -48
  st r15, r7, 8, any, keep
  st r15, r8, 16, any, keep
  st r15, r9, 24, any, keep
  st r15, r10, 32, any, keep
  st r15, r11, 40, any, keep
  mov r10, r0
  mov r11, r1
  ldi r5, 3
  ldi r4, 0
  ldi r6, 7
  ldi r7, 255
  mov r9, r4
L54:
  lea r1, r11, r9
  and r0, r1, r6
  sub r0, r4, r0
  lea r0, r1, r0
  shl r1, r1, r5
  ld r0, r0, 0, any, keep
  shr r0, r0, r1
  and r0, r0, r7
  addi r1, r9, 1
  bz r0, L55
L62:
  mov r9, r1
  br L54
L55:
  bz r9, L63
L64:
  mov r8, r4
  st r15, r4, 0, any, keep
  br L57
L63:
  mov r8, r4
  br L61
L56:
  ld r8, r15, 0, any, keep
L57:
  mov r2, r4
L58:
  add r0, r8, r2
  lea r1, r10, r0
  and r0, r1, r6
  sub r0, r4, r0
  lea r0, r1, r0
  shl r1, r1, r5
  ld r0, r0, 0, any, keep
  shr r0, r0, r1
  and r3, r0, r7
  lea r1, r11, r2
  and r0, r1, r6
  sub r0, r4, r0
  lea r0, r1, r0
  shl r1, r1, r5
  ld r0, r0, 0, any, keep
  shr r0, r0, r1
  and r0, r0, r7
  eq r0, r3, r0
  bz r0, L60
L59:
  addi r2, r2, 1
  eq r0, r2, r9
  bnz r3, L68
  ldi r0, 1
L68:
  bnz r0, L61
  br L58
L60:
  lea r1, r10, r8
  and r0, r1, r6
  sub r0, r4, r0
  lea r0, r1, r0
  shl r1, r1, r5
  ld r0, r0, 0, any, keep
  shr r0, r0, r1
  and r0, r0, r7
  ld r12, r15, 0, any, keep
  addi r12, r12, 1
  st r15, r12, 0, any, keep
  bnz r0, L56
L67:
  mov r8, r4
  mov r10, r4
L61:
  add r2, r10, r8
  isptr r0, r10
  bz r0, L69
  ldi r0, 54
  shr r0, r10, r0
  xor r1, r2, r10
  shr r1, r1, r0
  bnz r1, L69
  lea r2, r10, r8
L69:
  mov r0, r2
  ld r7, r15, 8, any, keep
  ld r8, r15, 16, any, keep
  ld r9, r15, 24, any, keep
  ld r10, r15, 32, any, keep
  ld r11, r15, 40, any, keep
  leai r15, r15, 48
  jmp r14
fputs:
  ;@ frame back - caller by 16
  leai r15, r15, -16
  st r15, r7, 0, any, keep
  st r15, r8, 8, any, keep
  mov r5, r0
  ldi r6, 3
  ldi r4, 0
  ldi r7, 7
  ldi r3, 56
  ldi r8, 255
  and r0, r5, r7
  sub r0, r4, r0
  lea r0, r5, r0
  shl r1, r5, r6
  ld r0, r0, 0, any, keep
  shr r0, r0, r1
  shl r0, r0, r3
  sar r1, r0, r3
  and r0, r1, r8
  bz r0, L71
L73:
  mov r2, r4
  br L72
L71:
  mov r0, r4
  ld r7, r15, 0, any, keep
  ld r8, r15, 8, any, keep
  leai r15, r15, 16
  jmp r14
L72:
  out r1
  addi r2, r2, 1
  lea r1, r5, r2
  and r0, r1, r7
  sub r0, r4, r0
  lea r0, r1, r0
  shl r1, r1, r6
  ld r0, r0, 0, any, keep
  shr r0, r0, r1
  shl r0, r0, r3
  sar r1, r0, r3
  and r0, r1, r8
  bz r0, L71
  br L72
memcpy:
  ;@ frame back - caller by 64
  leai r15, r15, -64
  st r15, r7, 24, any, keep
  st r15, r8, 32, any, keep
  st r15, r9, 40, any, keep
  st r15, r10, 48, any, keep
  st r15, r11, 56, any, keep
  st r15, r1, 0, any, keep
  st r15, r2, 8, any, keep
  mov r11, r0
  ldi r8, 7
  ldi r9, 0
  ldi r10, 3
  ldi r6, 1
  ldi r7, 2
  ld r12, r15, 0, any, keep
  xor r0, r12, r11
  and r0, r0, r8
  bz r0, L76
L101:
  mov r6, r9
  br L95
L76:
  ld r12, r15, 8, any, keep
  bnz r12, L77
L102:
  mov r4, r9
  br L93
L77:
  sub r0, r9, r11
  and r4, r0, r8
  bz r4, L93
L78:
  ld r12, r15, 0, any, keep
  and r0, r12, r8
  sub r0, r9, r0
  ld r12, r15, 0, any, keep
  lea r0, r12, r0
  ld r12, r15, 0, any, keep
  shl r1, r12, r10
  ld r0, r0, 0, any, keep
  shr r5, r0, r1
  and r0, r11, r8
  sub r0, r9, r0
  lea r3, r11, r0
  shl r2, r11, r10
  ld r1, r3, 0, any, keep
  shr r0, r1, r2
  xor r0, r0, r5
  ldi r13, 255
  and r0, r0, r13
  shl r0, r0, r2
  xor r0, r1, r0
  st r3, r0, 0, any, keep
  ld r12, r15, 8, any, keep
  eq r0, r12, r6
  bz r0, L79
L104:
  ld r4, r15, 8, any, keep
  br L93
L79:
  eq r0, r4, r6
  bnz r0, L93
L80:
  ld r12, r15, 0, any, keep
  leai r1, r12, 1
  and r0, r1, r8
  sub r0, r9, r0
  lea r0, r1, r0
  shl r1, r1, r10
  ld r0, r0, 0, any, keep
  shr r5, r0, r1
  leai r1, r11, 1
  and r0, r1, r8
  sub r0, r9, r0
  lea r3, r1, r0
  shl r2, r1, r10
  ld r1, r3, 0, any, keep
  shr r0, r1, r2
  xor r0, r0, r5
  ldi r13, 255
  and r0, r0, r13
  shl r0, r0, r2
  xor r0, r1, r0
  st r3, r0, 0, any, keep
  ld r12, r15, 8, any, keep
  eq r0, r12, r7
  bz r0, L81
L106:
  ld r4, r15, 8, any, keep
  br L93
L81:
  eq r0, r4, r7
  bnz r0, L93
L82:
  ld r12, r15, 0, any, keep
  leai r1, r12, 2
  and r0, r1, r8
  sub r0, r9, r0
  lea r0, r1, r0
  shl r1, r1, r10
  ld r0, r0, 0, any, keep
  shr r5, r0, r1
  leai r1, r11, 2
  and r0, r1, r8
  sub r0, r9, r0
  lea r3, r1, r0
  shl r2, r1, r10
  ld r1, r3, 0, any, keep
  shr r0, r1, r2
  xor r0, r0, r5
  ldi r13, 255
  and r0, r0, r13
  shl r0, r0, r2
  xor r0, r1, r0
  st r3, r0, 0, any, keep
  ld r12, r15, 8, any, keep
  eq r0, r12, r10
  bz r0, L83
L108:
  ld r4, r15, 8, any, keep
  br L93
L83:
  eq r0, r4, r10
  bnz r0, L93
L84:
  ld r12, r15, 0, any, keep
  leai r1, r12, 3
  and r0, r1, r8
  sub r0, r9, r0
  lea r0, r1, r0
  shl r1, r1, r10
  ld r0, r0, 0, any, keep
  shr r5, r0, r1
  leai r1, r11, 3
  and r0, r1, r8
  sub r0, r9, r0
  lea r3, r1, r0
  shl r2, r1, r10
  ld r1, r3, 0, any, keep
  shr r0, r1, r2
  xor r0, r0, r5
  ldi r13, 255
  and r0, r0, r13
  shl r0, r0, r2
  xor r0, r1, r0
  st r3, r0, 0, any, keep
  ld r12, r15, 8, any, keep
  ldi r13, 4
  eq r0, r12, r13
  bz r0, L85
L110:
  ld r4, r15, 8, any, keep
  br L93
L85:
  ldi r13, 4
  eq r0, r4, r13
  bnz r0, L93
L86:
  ld r12, r15, 0, any, keep
  leai r1, r12, 4
  and r0, r1, r8
  sub r0, r9, r0
  lea r0, r1, r0
  shl r1, r1, r10
  ld r0, r0, 0, any, keep
  shr r5, r0, r1
  leai r1, r11, 4
  and r0, r1, r8
  sub r0, r9, r0
  lea r3, r1, r0
  shl r2, r1, r10
  ld r1, r3, 0, any, keep
  shr r0, r1, r2
  xor r0, r0, r5
  ldi r13, 255
  and r0, r0, r13
  shl r0, r0, r2
  xor r0, r1, r0
  st r3, r0, 0, any, keep
  ld r12, r15, 8, any, keep
  ldi r13, 5
  eq r0, r12, r13
  bz r0, L87
L112:
  ld r4, r15, 8, any, keep
  br L93
L87:
  ldi r13, 5
  eq r0, r4, r13
  bnz r0, L93
L88:
  ld r12, r15, 0, any, keep
  leai r1, r12, 5
  and r0, r1, r8
  sub r0, r9, r0
  lea r0, r1, r0
  shl r1, r1, r10
  ld r0, r0, 0, any, keep
  shr r5, r0, r1
  leai r1, r11, 5
  and r0, r1, r8
  sub r0, r9, r0
  lea r3, r1, r0
  shl r2, r1, r10
  ld r1, r3, 0, any, keep
  shr r0, r1, r2
  xor r0, r0, r5
  ldi r13, 255
  and r0, r0, r13
  shl r0, r0, r2
  xor r0, r1, r0
  st r3, r0, 0, any, keep
  ld r12, r15, 8, any, keep
  ldi r13, 6
  eq r0, r12, r13
  bz r0, L89
L114:
  ld r4, r15, 8, any, keep
  br L93
L89:
  ldi r13, 6
  eq r0, r4, r13
  bnz r0, L93
L90:
  ld r12, r15, 0, any, keep
  leai r1, r12, 6
  and r0, r1, r8
  sub r0, r9, r0
  lea r0, r1, r0
  shl r1, r1, r10
  ld r0, r0, 0, any, keep
  shr r5, r0, r1
  leai r1, r11, 6
  and r0, r1, r8
  sub r0, r9, r0
  lea r3, r1, r0
  shl r2, r1, r10
  ld r1, r3, 0, any, keep
  shr r0, r1, r2
  xor r0, r0, r5
  ldi r13, 255
  and r0, r0, r13
  shl r0, r0, r2
  xor r0, r1, r0
  st r3, r0, 0, any, keep
  ld r12, r15, 8, any, keep
  eq r0, r12, r8
  bz r0, L91
L116:
  ld r4, r15, 8, any, keep
  br L93
L91:
  eq r0, r4, r8
  bnz r0, L93
L92:
  ld r12, r15, 0, any, keep
  leai r1, r12, 7
  and r0, r1, r8
  sub r0, r9, r0
  lea r0, r1, r0
  shl r1, r1, r10
  ld r0, r0, 0, any, keep
  shr r4, r0, r1
  leai r1, r11, 7
  and r0, r1, r8
  sub r0, r9, r0
  lea r3, r1, r0
  shl r2, r1, r10
  ld r1, r3, 0, any, keep
  shr r0, r1, r2
  xor r0, r0, r4
  ldi r13, 255
  and r0, r0, r13
  shl r0, r0, r2
  xor r0, r1, r0
  st r3, r0, 0, any, keep
  ld r4, r15, 8, any, keep
L93:
  addi r6, r4, 8
  ld r12, r15, 8, any, keep
  ltu r0, r12, r6
  bz r0, L94
L118:
  mov r6, r4
  br L95
L94:
  ld r12, r15, 0, any, keep
  lea r0, r12, r4
  ld r1, r0, 0, any, keep
  lea r0, r11, r4
  st r0, r1, 0, any, keep
  addi r1, r6, 8
  ld r12, r15, 8, any, keep
  ltu r0, r12, r1
  bnz r0, L95
L121:
  mov r4, r6
  mov r6, r1
  br L94
L95:
  ld r13, r15, 8, any, keep
  ltu r0, r6, r13
  bz r0, L100
L96:
  ld r12, r15, 8, any, keep
  sub r1, r12, r6
  ldi r13, -1
  xor r0, r6, r13
  ld r13, r15, 8, any, keep
  add r12, r0, r13
  st r15, r12, 16, any, keep
  and r7, r1, r10
  bz r7, L98
L123:
  mov r5, r9
L97:
  ld r12, r15, 0, any, keep
  lea r1, r12, r6
  and r0, r1, r8
  sub r0, r9, r0
  lea r0, r1, r0
  shl r1, r1, r10
  ld r0, r0, 0, any, keep
  shr r4, r0, r1
  lea r1, r11, r6
  and r0, r1, r8
  sub r0, r9, r0
  lea r3, r1, r0
  shl r2, r1, r10
  ld r1, r3, 0, any, keep
  shr r0, r1, r2
  xor r0, r0, r4
  ldi r13, 255
  and r0, r0, r13
  shl r0, r0, r2
  xor r0, r1, r0
  st r3, r0, 0, any, keep
  addi r6, r6, 1
  addi r5, r5, 1
  eq r0, r5, r7
  bz r0, L97
L98:
  ld r12, r15, 16, any, keep
  ltu r0, r12, r10
  bnz r0, L100
L99:
  ld r12, r15, 0, any, keep
  lea r1, r12, r6
  and r0, r1, r8
  sub r0, r9, r0
  lea r0, r1, r0
  shl r1, r1, r10
  ld r0, r0, 0, any, keep
  shr r4, r0, r1
  lea r1, r11, r6
  and r0, r1, r8
  sub r0, r9, r0
  lea r3, r1, r0
  shl r2, r1, r10
  ld r1, r3, 0, any, keep
  shr r0, r1, r2
  xor r0, r0, r4
  ldi r13, 255
  and r0, r0, r13
  shl r0, r0, r2
  xor r0, r1, r0
  st r3, r0, 0, any, keep
  addi r2, r6, 1
  ld r12, r15, 0, any, keep
  lea r1, r12, r2
  and r0, r1, r8
  sub r0, r9, r0
  lea r0, r1, r0
  shl r1, r1, r10
  ld r0, r0, 0, any, keep
  shr r4, r0, r1
  lea r1, r11, r2
  and r0, r1, r8
  sub r0, r9, r0
  lea r3, r1, r0
  shl r2, r1, r10
  ld r1, r3, 0, any, keep
  shr r0, r1, r2
  xor r0, r0, r4
  ldi r13, 255
  and r0, r0, r13
  shl r0, r0, r2
  xor r0, r1, r0
  st r3, r0, 0, any, keep
  addi r2, r6, 2
  ld r12, r15, 0, any, keep
  lea r1, r12, r2
  and r0, r1, r8
  sub r0, r9, r0
  lea r0, r1, r0
  shl r1, r1, r10
  ld r0, r0, 0, any, keep
  shr r4, r0, r1
  lea r1, r11, r2
  and r0, r1, r8
  sub r0, r9, r0
  lea r3, r1, r0
  shl r2, r1, r10
  ld r1, r3, 0, any, keep
  shr r0, r1, r2
  xor r0, r0, r4
  ldi r13, 255
  and r0, r0, r13
  shl r0, r0, r2
  xor r0, r1, r0
  st r3, r0, 0, any, keep
  addi r2, r6, 3
  ld r12, r15, 0, any, keep
  lea r1, r12, r2
  and r0, r1, r8
  sub r0, r9, r0
  lea r0, r1, r0
  shl r1, r1, r10
  ld r0, r0, 0, any, keep
  shr r4, r0, r1
  lea r1, r11, r2
  and r0, r1, r8
  sub r0, r9, r0
  lea r3, r1, r0
  shl r2, r1, r10
  ld r1, r3, 0, any, keep
  shr r0, r1, r2
  xor r0, r0, r4
  ldi r13, 255
  and r0, r0, r13
  shl r0, r0, r2
  xor r0, r1, r0
  st r3, r0, 0, any, keep
  addi r6, r6, 4
  ld r13, r15, 8, any, keep
  eq r0, r6, r13
  bz r0, L99
L100:
  mov r0, r11
  ld r7, r15, 24, any, keep
  ld r8, r15, 32, any, keep
  ld r9, r15, 40, any, keep
  ld r10, r15, 48, any, keep
  ld r11, r15, 56, any, keep
  leai r15, r15, 64
  jmp r14
strlen:
  ;@ frame back - caller by 8
  leai r15, r15, -8
  st r15, r7, 0, any, keep
  mov r3, r0
  ldi r5, 3
  ldi r4, 0
  ldi r6, 7
  ldi r7, 255
  mov r2, r4
L129:
  lea r1, r3, r2
  and r0, r1, r6
  sub r0, r4, r0
  lea r0, r1, r0
  shl r1, r1, r5
  ld r0, r0, 0, any, keep
  shr r0, r0, r1
  and r0, r0, r7
  addi r1, r2, 1
  bz r0, L130
L131:
  mov r2, r1
  br L129
L130:
  mov r0, r2
  ld r7, r15, 0, any, keep
  leai r15, r15, 8
  jmp r14
P_0: .ptr ro __const_main_room+0
P_1: .ptr ro _str_7+1
P_2: .ptr ro _str+7
P_3: .ptr rw stdout+0
P_4: .ptr ro _str_1+2
P_5: .ptr ro _str_2+2
P_6: .ptr ro _str_3+5
P_7: .ptr ro _str_5+7
P_8: .ptr ro _str_6+4
P_9: .ptr ro _str_9+2
P_10: .ptr ro _str_8+2
.segment __const_main_room 5
  ;@ global room 32 at 0 constant
  .int 0x64656472617567
.segment _str 4
  ;@ unnamed at 7 constant
  .int 0x2000000000000000
  .int 0x7265746e696f70
.segment stdout 3
  ;@ global stdout 8 at 0
  .ptr rw files+8
.segment _str_1 3
  ;@ unnamed at 2 constant
  .int 0x746e696f700000
.segment _str_2 4
  ;@ unnamed at 2 constant
  .int 0x6120736168200000
  .int 0xa746e696f7020
.segment _str_3 4
  ;@ unnamed at 5 constant
  .int 0x6168200000000000
  .int 0xa656e6f6e2073
.segment _str_6 4
  ;@ unnamed at 4 constant
  .int 0x7469772000000000
  .int 0xa7a2074756f68
.segment _str_5 4
  ;@ unnamed at 7 constant
  .int 0x2000000000000000
  .int 0xa7a2068746977
.segment _str_7 5
  ;@ unnamed at 1 constant
  .int 0x202c6e616d204100
  .int 0x202c6e616c702061
  .int 0x3a6c616e61632061
  .int 0x616d616e615020
.segment _str_9 3
  ;@ unnamed at 2 constant
  .int 0xa656e6f6e0000
.segment _str_8 4
  ;@ unnamed at 2 constant
  .int 0x696c617020610000
  .int 0xa656d6f72646e
.segment files 4
  ;@ global files 12 at 4
  .fill 1
  .int 0x200000001
.segment stack 16
.thread 0 0 none xu start
.reg 15 ptr rw stack+65472
;@ type 1 pointer 2
;@ type 2 base i1 char
;@ type 3 pointer 2
;@ type 4 base i8 long
;@ type 5 base i4 int
;@ type 6 base u8 unsigned long
;@ type 7 array 32 2
;@ type 8 array 20 2
