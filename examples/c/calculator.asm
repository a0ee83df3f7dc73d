.segment text 14
start:
  ldi r0, 1
  ldi r1, 0
  lip r14, 2
  br main
  halt
main:
  ;@ function main at examples/c/calculator.c:112
  ;@ frame back 0 caller by 8
  leai r15, r15, -8
  st r15, r14, 0, any, keep
  ;@ line examples/c/calculator.c:114
  lip r0, P_0
  ld r0, r0, 0, any, keep
  lip r14, 2
  br line
  ;@ line examples/c/calculator.c:115
  lip r0, P_1
  ld r0, r0, 0, any, keep
  lip r14, 2
  br line
  ;@ line examples/c/calculator.c:116
  lip r0, P_2
  ld r0, r0, 0, any, keep
  lip r14, 2
  br line
  ;@ line examples/c/calculator.c:117
  ldi r0, 0
  ld r14, r15, 0, any, keep
  leai r15, r15, 8
  jmp r14
line:
  ;@ function line at examples/c/calculator.c:96
  ;@ inlined 1 put at examples/c/calculator.c:103
  ;@ inlined 2 put at examples/c/calculator.c:104
  ;@ inlined 3 carry_out at examples/c/calculator.c:105
  ;@ inlined 4 say at examples/c/calculator.c:107
  ;@ inlined 5 say_number at examples/c/calculator.c:108
  ;@ frame back 64 caller at 72
  ;@ local digits 20 at 104 log 5 type 9 in 5
  ldi r13, 31
  and r13, r15, r13
  ldi r12, -128
  sub r13, r12, r13
  lea r12, r15, r13
  st r12, r15, 72, any, keep
  mov r15, r12
  st r15, r7, 24, any, keep
  st r15, r8, 32, any, keep
  st r15, r9, 40, any, keep
  st r15, r10, 48, any, keep
  st r15, r11, 56, any, keep
  st r15, r14, 64, any, keep
  mov r3, r0
  leai r12, r15, 104
  ldi r14, 5
  subseg r12, r12, r14
  st r15, r12, 0, any, keep
  lip r4, P_3
  ld r4, r4, 0, any, keep
  lip r8, P_4
  ld r8, r8, 0, any, keep
  ldi r9, 32
  lip r11, P_5
  ld r11, r11, 0, any, keep
  lip r7, P_6
  ld r7, r7, 0, any, keep
  lip r10, P_7
  ld r10, r10, 0, any, keep
  ;@ line examples/c/calculator.c:98
  ;@ var text 1 r3
  st r4, r3, 0, any, keep
  ;@ line examples/c/calculator.c:99
  ld r0, r8, -4, any, keep
  shl r0, r0, r9
  shr r1, r0, r9
  ldi r12, 0
  shl r0, r12, r9
  or r0, r1, r0
  st r8, r0, -4, any, keep
  ;@ line examples/c/calculator.c:100
  ldi r13, 7
  and r0, r3, r13
  ldi r12, 0
  sub r0, r12, r0
  lea r0, r3, r0
  ldi r13, 3
  shl r1, r3, r13
  ld r0, r0, 0, any, keep
  shr r0, r0, r1
  ldi r13, 56
  shl r0, r0, r13
  ldi r13, 56
  sar r12, r0, r13
  st r15, r12, 16, any, keep
  ;@ line examples/c/calculator.c:101
  ;@ var name 3 s16
  ldi r13, 3
  add r2, r3, r13
  isptr r0, r3
  bz r0, L19
  ldi r0, 54
  shr r0, r3, r0
  xor r1, r2, r3
  shr r1, r1, r0
  bnz r1, L19
  lea r2, r3, r13
L19:
  ;@ var text 1 -
  st r4, r2, 0, any, keep
  ;@ line examples/c/calculator.c:102
  lip r14, 2
  br sum
  ;@ line examples/c/calculator.c:103
  ld r12, r15, 16, any, keep
  addi r12, r12, -97
  st r15, r12, 8, any, keep
  ;@ line examples/c/calculator.c:22 in 1
  ;@ var code 4 2 in 1
  ;@ var operand 5 s8 in 1
  ld r0, r8, -4, any, keep
  sar r3, r0, r9
  addi r2, r3, 1
  shl r0, r2, r9
  sar r4, r0, r9
  ld r0, r8, -4, any, keep
  shl r0, r0, r9
  shr r1, r0, r9
  shl r0, r2, r9
  or r0, r1, r0
  st r8, r0, -4, any, keep
  ldi r13, 4
  shl r2, r3, r13
  lea r0, r11, r2
  ld r1, r0, 0, any, keep
  ldi r13, 2
  xor r0, r1, r13
  ldi r13, 0
  ldhi r13, 4294967295
  and r0, r0, r13
  xor r1, r1, r0
  lea r0, r11, r2
  st r0, r1, 0, any, keep
  ldi r13, 4
  shl r0, r3, r13
  addi r0, r0, 8
  lea r0, r11, r0
  ld r13, r15, 8, any, keep
  st r0, r13, 0, any, keep
  ;@ line examples/c/calculator.c:22 in 2
  ;@ var code 4 7 in 2
  ;@ var operand 5 0 in 2
  addi r2, r3, 2
  ld r0, r8, -4, any, keep
  shl r0, r0, r9
  shr r1, r0, r9
  shl r0, r2, r9
  or r0, r1, r0
  st r8, r0, -4, any, keep
  ldi r13, 4
  shl r2, r4, r13
  lea r0, r11, r2
  ld r1, r0, 0, any, keep
  ldi r13, 7
  xor r0, r1, r13
  ldi r13, 0
  ldhi r13, 4294967295
  and r0, r0, r13
  xor r1, r1, r0
  lea r0, r11, r2
  st r0, r1, 0, any, keep
  ldi r13, 4
  shl r0, r4, r13
  addi r0, r0, 8
  lea r0, r11, r0
  ldi r13, 0
  st r0, r13, 0, any, keep
  ;@ var now 6 @program in 3
  ldi r8, 0
L3:
  ;@ line examples/c/calculator.c:77 in 3
  ;@ var now 6 @program+r8 in 3
  lea r0, r11, r8
  ld r0, r0, 0, any, keep
  shl r0, r0, r9
  sar r3, r0, r9
  bz r3, L4
  ldi r13, 1
  eq r0, r3, r13
  bnz r0, L5
  ldi r13, 2
  eq r0, r3, r13
  bnz r0, L6
  ldi r13, 7
  eq r0, r3, r13
  bnz r0, L9
  br L7
L4:
  ;@ line examples/c/calculator.c:79 in 3
  addi r0, r8, 8
  lea r0, r11, r0
  ld r4, r0, 0, any, keep
  ld r0, r7, -4, any, keep
  sar r3, r0, r9
  addi r2, r3, 1
  ld r0, r7, -4, any, keep
  shl r0, r0, r9
  shr r1, r0, r9
  shl r0, r2, r9
  or r0, r1, r0
  st r7, r0, -4, any, keep
  ldi r13, 3
  shl r0, r3, r13
  lea r0, r10, r0
  st r0, r4, 0, any, keep
  ;@ line examples/c/calculator.c:80 in 3
  br L8
L5:
  ;@ line examples/c/calculator.c:82 in 3
  addi r0, r8, 8
  lea r0, r11, r0
  ld r0, r0, 0, any, keep
  ldi r13, 3
  shl r0, r0, r13
  lip r12, P_8
  ld r12, r12, 0, any, keep
  lea r0, r12, r0
  ld r4, r0, 0, any, keep
  ld r0, r7, -4, any, keep
  sar r3, r0, r9
  addi r2, r3, 1
  ld r0, r7, -4, any, keep
  shl r0, r0, r9
  shr r1, r0, r9
  shl r0, r2, r9
  or r0, r1, r0
  st r7, r0, -4, any, keep
  ldi r13, 3
  shl r0, r3, r13
  lea r0, r10, r0
  st r0, r4, 0, any, keep
  ;@ line examples/c/calculator.c:83 in 3
  br L8
L6:
  ;@ line examples/c/calculator.c:85 in 3
  ld r0, r7, -4, any, keep
  shr r0, r0, r9
  addi r2, r0, -1
  shl r0, r2, r9
  sar r3, r0, r9
  ld r0, r7, -4, any, keep
  shl r0, r0, r9
  shr r1, r0, r9
  shl r0, r2, r9
  or r0, r1, r0
  st r7, r0, -4, any, keep
  ldi r13, 3
  shl r0, r3, r13
  lea r0, r10, r0
  ld r1, r0, 0, any, keep
  addi r0, r8, 8
  lea r0, r11, r0
  ld r0, r0, 0, any, keep
  ldi r13, 3
  shl r0, r0, r13
  lip r12, P_8
  ld r12, r12, 0, any, keep
  lea r0, r12, r0
  st r0, r1, 0, any, keep
  ;@ line examples/c/calculator.c:86 in 3
  br L8
L7:
  ;@ line examples/c/calculator.c:90 in 3
  ld r0, r7, -4, any, keep
  shr r4, r0, r9
  addi r2, r4, -1
  shl r0, r2, r9
  sar r5, r0, r9
  ld r0, r7, -4, any, keep
  shl r0, r0, r9
  shr r1, r0, r9
  shl r0, r2, r9
  or r0, r1, r0
  st r7, r0, -4, any, keep
  ;@ line examples/c/calculator.c:91 in 3
  addi r0, r3, -3
  ldi r13, 0
  ldhi r13, 4294967295
  and r0, r0, r13
  ldi r13, 3
  shl r0, r0, r13
  lip r12, P_9
  ld r12, r12, 0, any, keep
  lea r0, r12, r0
  ld r3, r0, 0, any, keep
  addi r0, r4, -2
  shl r0, r0, r9
  sar r0, r0, r9
  ldi r13, 3
  shl r0, r0, r13
  lea r0, r10, r0
  ld r2, r0, 0, any, keep
  ldi r13, 3
  shl r0, r5, r13
  lea r0, r10, r0
  ld r1, r0, 0, any, keep
  mov r13, r3
  mov r0, r2
  jal r14, r13
  mov r1, r0
  ld r0, r7, -4, any, keep
  shr r0, r0, r9
  addi r0, r0, -1
  shl r0, r0, r9
  sar r0, r0, r9
  ldi r13, 3
  shl r0, r0, r13
  lea r0, r10, r0
  st r0, r1, 0, any, keep
L8:
  ;@ var now 6 @program+r8+16 in 3
  addi r8, r8, 16
  ;@ line examples/c/calculator.c:76 in 3
  br L3
L9:
  ;@ line examples/c/calculator.c:106
  ;@ var now 6 - in 3
  ld r0, r15, 16, any, keep
  lip r14, 2
  br putchar
  ;@ line examples/c/say.h:8 in 4
  ;@ var name 3 -
  ;@ var text 1 @_str_3 in 4
  lip r12, P_10
  ld r12, r12, 0, any, keep
  ld r3, r12, 0, any, keep
  lip r0, P_11
  ld r0, r0, 0, any, keep
  ldi r1, 3
  ldi r2, 1
  lip r14, 2
  br fwrite
  ;@ line examples/c/calculator.c:108
  ld r12, r15, 8, any, keep
  ldi r13, 3
  shl r0, r12, r13
  ;@ var operand 5 - in 1
  lip r12, P_8
  ld r12, r12, 0, any, keep
  lea r0, r12, r0
  ld r0, r0, 0, any, keep
  ;@ line examples/c/say.h:15 in 5
  ;@ var number 5 r0 in 5
  ;@ var length 3 0 in 5
  ldi r12, 0
  sub r2, r12, r0
  ldi r13, 0
  lts r1, r0, r13
  mov r7, r2
  bnz r1, L20
  mov r7, r0
L20:
  ;@ line examples/c/say.h:16 in 5
  ;@ var rest 8 r7 in 5
  ldi r13, 0
  lts r0, r0, r13
  ;@ var number 5 - in 5
  bz r0, L11
L10:
  ;@ line examples/c/say.h:17 in 5
  ldi r0, 45
  lip r14, 2
  br putchar
L11:
  ldi r1, 0
L12:
  ;@ line examples/c/say.h:20 in 5
  ;@ var length 3 r1 in 5
  ldi r13, 10
  divu r5, r7, r13
  ldi r13, 10
  mul r0, r5, r13
  sub r0, r7, r0
  ;@ line examples/c/say.h:19 in 5
  ldi r13, 48
  or r4, r0, r13
  addi r8, r1, 1
  shl r0, r8, r9
  sar r6, r0, r9
  ;@ var length 3 r8 in 5
  addi r1, r1, 8
  ldi r13, -8
  and r0, r1, r13
  ld r12, r15, 0, any, keep
  leab r3, r12, r0
  ldi r13, 3
  shl r2, r1, r13
  ld r1, r3, 0, any, keep
  shr r0, r1, r2
  xor r0, r0, r4
  ldi r13, 255
  and r0, r0, r13
  shl r0, r0, r2
  xor r0, r1, r0
  st r3, r0, 0, any, keep
  ;@ var rest 8 r5 in 5
  ldi r13, 10
  ltu r0, r7, r13
  bnz r0, L13
L16:
  ;@ var length 3 r6 in 5
  mov r1, r6
  ;@ var length 3 - in 5
  mov r7, r5
  ;@ var rest 8 - in 5
  br L12
L13:
  ;@ line examples/c/say.h:21 in 5
  ;@ var length 3 r8 in 5
  bz r6, L15
L14:
  ;@ line examples/c/say.h:22 in 5
  addi r8, r8, -1
  ;@ var length 3 - in 5
  shl r0, r8, r9
  sar r7, r0, r9
  ;@ var length 3 r8 in 5
  addi r1, r7, 8
  ldi r13, -8
  and r0, r1, r13
  ld r12, r15, 0, any, keep
  leab r0, r12, r0
  ldi r13, 3
  shl r1, r1, r13
  ld r0, r0, 0, any, keep
  shr r0, r0, r1
  ldi r13, 56
  shl r0, r0, r13
  ldi r13, 56
  sar r0, r0, r13
  lip r14, 2
  br putchar
  ;@ line examples/c/say.h:21 in 5
  bnz r7, L14
L15:
  ;@ line examples/c/calculator.c:109
  ;@ var length 3 - in 5
  ldi r0, 10
  lip r14, 2
  br putchar
  ;@ line examples/c/calculator.c:110
  ld r7, r15, 24, any, keep
  ld r8, r15, 32, any, keep
  ld r9, r15, 40, any, keep
  ld r10, r15, 48, any, keep
  ld r11, r15, 56, any, keep
  ld r14, r15, 64, any, keep
  ld r15, r15, 72, any, keep
  jmp r14
fwrite:
  ;@ frame back - caller by 24
  leai r15, r15, -24
  st r15, r7, 0, any, keep
  st r15, r8, 8, any, keep
  st r15, r9, 16, any, keep
  mov r5, r0
  mov r9, r2
  mov r0, r3
  ldi r7, 3
  ldi r6, 0
  ldi r8, 7
  ldi r3, 56
  mul r4, r9, r1
  bz r4, L22
L24:
  mov r2, r6
  br L23
L22:
  mov r0, r9
  ld r7, r15, 0, any, keep
  ld r8, r15, 8, any, keep
  ld r9, r15, 16, any, keep
  leai r15, r15, 24
  jmp r14
L23:
  lea r1, r5, r2
  and r0, r1, r8
  sub r0, r6, r0
  lea r0, r1, r0
  shl r1, r1, r7
  ld r0, r0, 0, any, keep
  shr r0, r0, r1
  shl r0, r0, r3
  sar r0, r0, r3
  out r0
  addi r2, r2, 1
  eq r0, r2, r4
  bnz r0, L22
  br L23
putchar:
  ;@ frame back - caller by 0
  out r0
  ldi r13, 255
  and r0, r0, r13
  jmp r14
sum:
  ;@ function sum at examples/c/calculator.c:57
  ;@ inlined 1 product at examples/c/calculator.c:59
  ;@ inlined 2 next at examples/c/calculator.c:50 in 1
  ;@ inlined 3 put at examples/c/calculator.c:53 in 1
  ;@ inlined 4 next at examples/c/calculator.c:60
  ;@ inlined 5 product at examples/c/calculator.c:62
  ;@ inlined 6 next at examples/c/calculator.c:50 in 5
  ;@ inlined 7 put at examples/c/calculator.c:53 in 5
  ;@ inlined 8 put at examples/c/calculator.c:63
  ;@ frame back 48 caller by 56
  leai r15, r15, -56
  st r15, r7, 8, any, keep
  st r15, r8, 16, any, keep
  st r15, r9, 24, any, keep
  st r15, r10, 32, any, keep
  st r15, r11, 40, any, keep
  st r15, r14, 48, any, keep
  lip r8, P_3
  ld r8, r8, 0, any, keep
  ldi r10, 0
  ldi r9, 56
  ldi r11, 32
  ;@ line examples/c/calculator.c:49 in 1
  lip r14, 2
  br factor
L28:
  ;@ line examples/c/calculator.c:27 in 2
  ld r5, r8, 0, any, keep
  ldi r13, 7
  and r0, r5, r13
  sub r0, r10, r0
  lea r0, r5, r0
  ldi r13, 3
  shl r1, r5, r13
  ld r0, r0, 0, any, keep
  shr r0, r0, r1
  shl r0, r0, r9
  sar r1, r0, r9
  ldi r13, 255
  and r0, r1, r13
  eq r0, r0, r11
  bz r0, L30
L45:
  mov r4, r10
L29:
  ;@ line examples/c/calculator.c:28 in 2
  addi r3, r4, 1
  add r2, r5, r3
  isptr r0, r5
  bz r0, L57
  ldi r0, 54
  shr r0, r5, r0
  xor r1, r2, r5
  shr r1, r1, r0
  bnz r1, L57
  lea r2, r5, r3
L57:
  st r8, r2, 0, any, keep
  ;@ line examples/c/calculator.c:27 in 2
  addi r0, r4, 1
  lea r1, r5, r0
  ldi r13, 7
  and r0, r1, r13
  sub r0, r10, r0
  lea r0, r1, r0
  ldi r13, 3
  shl r1, r1, r13
  ld r0, r0, 0, any, keep
  shr r0, r0, r1
  shl r0, r0, r9
  sar r1, r0, r9
  ldi r13, 255
  and r0, r1, r13
  eq r0, r0, r11
  bz r0, L30
L47:
  addi r4, r4, 1
  br L29
L30:
  ;@ line examples/c/calculator.c:50 in 1
  ldi r13, 42
  eq r0, r1, r13
  bnz r0, L32
L31:
  ld r1, r8, 0, any, keep
  ldi r13, 7
  and r0, r1, r13
  sub r0, r10, r0
  lea r0, r1, r0
  ldi r13, 3
  shl r1, r1, r13
  ld r0, r0, 0, any, keep
  shr r0, r0, r1
  ldi r13, 255
  and r0, r0, r13
  ldi r13, 47
  eq r0, r0, r13
  bz r0, L33
L32:
  ;@ line examples/c/calculator.c:51 in 1
  ld r3, r8, 0, any, keep
  ldi r13, 1
  add r2, r3, r13
  isptr r0, r3
  bz r0, L58
  ldi r0, 54
  shr r0, r3, r0
  xor r1, r2, r3
  shr r1, r1, r0
  bnz r1, L58
  lea r2, r3, r13
L58:
  st r8, r2, 0, any, keep
  ldi r13, 7
  and r0, r3, r13
  sub r0, r10, r0
  lea r0, r3, r0
  ldi r13, 3
  shl r1, r3, r13
  ld r0, r0, 0, any, keep
  shr r0, r0, r1
  ldi r13, 255
  and r0, r0, r13
  ldi r13, 42
  eq r0, r0, r13
  ldi r7, 5
  bnz r0, L59
  ldi r7, 6
L59:
  ;@ line examples/c/calculator.c:52 in 1
  ;@ var code 4 r7 in 1
  lip r14, 2
  br factor
  ;@ line examples/c/calculator.c:22 in 3
  ;@ var code 4 r7 in 3
  ;@ var operand 5 0 in 3
  lip r12, P_4
  ld r12, r12, 0, any, keep
  ld r0, r12, -4, any, keep
  sar r3, r0, r11
  addi r2, r3, 1
  lip r12, P_4
  ld r12, r12, 0, any, keep
  ld r0, r12, -4, any, keep
  shl r0, r0, r11
  shr r1, r0, r11
  shl r0, r2, r11
  or r0, r1, r0
  lip r12, P_4
  ld r12, r12, 0, any, keep
  st r12, r0, -4, any, keep
  ldi r13, 4
  shl r2, r3, r13
  lip r12, P_5
  ld r12, r12, 0, any, keep
  lea r0, r12, r2
  ld r1, r0, 0, any, keep
  xor r0, r1, r7
  ;@ var code 4 - in 1
  ;@ var code 4 - in 3
  ldi r13, 0
  ldhi r13, 4294967295
  and r0, r0, r13
  xor r1, r1, r0
  lip r12, P_5
  ld r12, r12, 0, any, keep
  lea r0, r12, r2
  st r0, r1, 0, any, keep
  ldi r13, 4
  shl r0, r3, r13
  addi r0, r0, 8
  lip r12, P_5
  ld r12, r12, 0, any, keep
  lea r0, r12, r0
  st r0, r10, 0, any, keep
  ;@ line examples/c/calculator.c:50 in 1
  br L28
L33:
  ;@ line examples/c/calculator.c:27 in 4
  ;@ var operand 5 - in 3
  ld r5, r8, 0, any, keep
  ldi r13, 7
  and r0, r5, r13
  sub r0, r10, r0
  lea r0, r5, r0
  ldi r13, 3
  shl r1, r5, r13
  ld r0, r0, 0, any, keep
  shr r0, r0, r1
  shl r0, r0, r9
  sar r1, r0, r9
  ldi r13, 255
  and r0, r1, r13
  eq r0, r0, r11
  bz r0, L35
L49:
  mov r4, r10
L34:
  ;@ line examples/c/calculator.c:28 in 4
  addi r3, r4, 1
  add r2, r5, r3
  isptr r0, r5
  bz r0, L60
  ldi r0, 54
  shr r0, r5, r0
  xor r1, r2, r5
  shr r1, r1, r0
  bnz r1, L60
  lea r2, r5, r3
L60:
  st r8, r2, 0, any, keep
  ;@ line examples/c/calculator.c:27 in 4
  addi r0, r4, 1
  lea r1, r5, r0
  ldi r13, 7
  and r0, r1, r13
  sub r0, r10, r0
  lea r0, r1, r0
  ldi r13, 3
  shl r1, r1, r13
  ld r0, r0, 0, any, keep
  shr r0, r0, r1
  shl r0, r0, r9
  sar r1, r0, r9
  ldi r13, 255
  and r0, r1, r13
  eq r0, r0, r11
  bz r0, L35
L51:
  addi r4, r4, 1
  br L34
L35:
  ;@ line examples/c/calculator.c:60
  ldi r13, 43
  eq r0, r1, r13
  bnz r0, L37
L36:
  ld r1, r8, 0, any, keep
  ldi r13, 7
  and r0, r1, r13
  sub r0, r10, r0
  lea r0, r1, r0
  ldi r13, 3
  shl r1, r1, r13
  ld r0, r0, 0, any, keep
  shr r0, r0, r1
  ldi r13, 255
  and r0, r0, r13
  ldi r13, 45
  eq r0, r0, r13
  bz r0, L44
L37:
  ;@ line examples/c/calculator.c:61
  ld r3, r8, 0, any, keep
  ldi r13, 1
  add r2, r3, r13
  isptr r0, r3
  bz r0, L61
  ldi r0, 54
  shr r0, r3, r0
  xor r1, r2, r3
  shr r1, r1, r0
  bnz r1, L61
  lea r2, r3, r13
L61:
  st r8, r2, 0, any, keep
  ldi r13, 7
  and r0, r3, r13
  sub r0, r10, r0
  lea r0, r3, r0
  ldi r13, 3
  shl r1, r3, r13
  ld r0, r0, 0, any, keep
  shr r0, r0, r1
  ldi r13, 255
  and r12, r0, r13
  st r15, r12, 0, any, keep
  ;@ line examples/c/calculator.c:49 in 5
  lip r14, 2
  br factor
L38:
  ;@ line examples/c/calculator.c:27 in 6
  ld r5, r8, 0, any, keep
  ldi r13, 7
  and r0, r5, r13
  sub r0, r10, r0
  lea r0, r5, r0
  ldi r13, 3
  shl r1, r5, r13
  ld r0, r0, 0, any, keep
  shr r0, r0, r1
  shl r0, r0, r9
  sar r1, r0, r9
  ldi r13, 255
  and r0, r1, r13
  eq r0, r0, r11
  bz r0, L40
L53:
  mov r4, r10
L39:
  ;@ line examples/c/calculator.c:28 in 6
  addi r3, r4, 1
  add r2, r5, r3
  isptr r0, r5
  bz r0, L62
  ldi r0, 54
  shr r0, r5, r0
  xor r1, r2, r5
  shr r1, r1, r0
  bnz r1, L62
  lea r2, r5, r3
L62:
  st r8, r2, 0, any, keep
  ;@ line examples/c/calculator.c:27 in 6
  addi r0, r4, 1
  lea r1, r5, r0
  ldi r13, 7
  and r0, r1, r13
  sub r0, r10, r0
  lea r0, r1, r0
  ldi r13, 3
  shl r1, r1, r13
  ld r0, r0, 0, any, keep
  shr r0, r0, r1
  shl r0, r0, r9
  sar r1, r0, r9
  ldi r13, 255
  and r0, r1, r13
  eq r0, r0, r11
  bz r0, L40
L55:
  addi r4, r4, 1
  br L39
L40:
  ;@ line examples/c/calculator.c:50 in 5
  ldi r13, 42
  eq r0, r1, r13
  bnz r0, L42
L41:
  ld r1, r8, 0, any, keep
  ldi r13, 7
  and r0, r1, r13
  sub r0, r10, r0
  lea r0, r1, r0
  ldi r13, 3
  shl r1, r1, r13
  ld r0, r0, 0, any, keep
  shr r0, r0, r1
  ldi r13, 255
  and r0, r0, r13
  ldi r13, 47
  eq r0, r0, r13
  bz r0, L43
L42:
  ;@ line examples/c/calculator.c:51 in 5
  ld r3, r8, 0, any, keep
  ldi r13, 1
  add r2, r3, r13
  isptr r0, r3
  bz r0, L63
  ldi r0, 54
  shr r0, r3, r0
  xor r1, r2, r3
  shr r1, r1, r0
  bnz r1, L63
  lea r2, r3, r13
L63:
  st r8, r2, 0, any, keep
  ldi r13, 7
  and r0, r3, r13
  sub r0, r10, r0
  lea r0, r3, r0
  ldi r13, 3
  shl r1, r3, r13
  ld r0, r0, 0, any, keep
  shr r0, r0, r1
  ldi r13, 255
  and r0, r0, r13
  ldi r13, 42
  eq r0, r0, r13
  ldi r7, 5
  bnz r0, L64
  ldi r7, 6
L64:
  ;@ line examples/c/calculator.c:52 in 5
  ;@ var code 4 r7 in 5
  lip r14, 2
  br factor
  ;@ line examples/c/calculator.c:22 in 7
  ;@ var code 4 r7 in 7
  ;@ var operand 5 0 in 7
  lip r12, P_4
  ld r12, r12, 0, any, keep
  ld r0, r12, -4, any, keep
  sar r3, r0, r11
  addi r2, r3, 1
  lip r12, P_4
  ld r12, r12, 0, any, keep
  ld r0, r12, -4, any, keep
  shl r0, r0, r11
  shr r1, r0, r11
  shl r0, r2, r11
  or r0, r1, r0
  lip r12, P_4
  ld r12, r12, 0, any, keep
  st r12, r0, -4, any, keep
  ldi r13, 4
  shl r2, r3, r13
  lip r12, P_5
  ld r12, r12, 0, any, keep
  lea r0, r12, r2
  ld r1, r0, 0, any, keep
  xor r0, r1, r7
  ;@ var code 4 - in 5
  ;@ var code 4 - in 7
  ldi r13, 0
  ldhi r13, 4294967295
  and r0, r0, r13
  xor r1, r1, r0
  lip r12, P_5
  ld r12, r12, 0, any, keep
  lea r0, r12, r2
  st r0, r1, 0, any, keep
  ldi r13, 4
  shl r0, r3, r13
  addi r0, r0, 8
  lip r12, P_5
  ld r12, r12, 0, any, keep
  lea r0, r12, r0
  st r0, r10, 0, any, keep
  ;@ line examples/c/calculator.c:50 in 5
  br L38
L43:
  ;@ line examples/c/calculator.c:61
  ;@ var operand 5 - in 7
  ld r12, r15, 0, any, keep
  ldi r13, 43
  eq r0, r12, r13
  ldi r4, 3
  bnz r0, L65
  ldi r4, 4
L65:
  ;@ line examples/c/calculator.c:22 in 8
  ;@ var code 4 r4 in 8
  ;@ var operand 5 0 in 8
  lip r12, P_4
  ld r12, r12, 0, any, keep
  ld r0, r12, -4, any, keep
  sar r3, r0, r11
  addi r2, r3, 1
  lip r12, P_4
  ld r12, r12, 0, any, keep
  ld r0, r12, -4, any, keep
  shl r0, r0, r11
  shr r1, r0, r11
  shl r0, r2, r11
  or r0, r1, r0
  lip r12, P_4
  ld r12, r12, 0, any, keep
  st r12, r0, -4, any, keep
  ldi r13, 4
  shl r2, r3, r13
  lip r12, P_5
  ld r12, r12, 0, any, keep
  lea r0, r12, r2
  ld r1, r0, 0, any, keep
  xor r0, r1, r4
  ;@ var code 4 - in 8
  ldi r13, 0
  ldhi r13, 4294967295
  and r0, r0, r13
  xor r1, r1, r0
  lip r12, P_5
  ld r12, r12, 0, any, keep
  lea r0, r12, r2
  st r0, r1, 0, any, keep
  ldi r13, 4
  shl r0, r3, r13
  addi r0, r0, 8
  lip r12, P_5
  ld r12, r12, 0, any, keep
  lea r0, r12, r0
  st r0, r10, 0, any, keep
  ;@ line examples/c/calculator.c:60
  br L33
L44:
  ;@ line examples/c/calculator.c:65
  ;@ var operand 5 - in 8
  ld r7, r15, 8, any, keep
  ld r8, r15, 16, any, keep
  ld r9, r15, 24, any, keep
  ld r10, r15, 32, any, keep
  ld r11, r15, 40, any, keep
  ld r14, r15, 48, any, keep
  leai r15, r15, 56
  jmp r14
factor:
  ;@ function factor at examples/c/calculator.c:34
  ;@ inlined 1 next at examples/c/calculator.c:36
  ;@ inlined 2 put at examples/c/calculator.c:41
  ;@ inlined 3 put at examples/c/calculator.c:43
  ;@ frame back 40 caller by 48
  leai r15, r15, -48
  st r15, r7, 0, any, keep
  st r15, r8, 8, any, keep
  st r15, r9, 16, any, keep
  st r15, r10, 24, any, keep
  st r15, r11, 32, any, keep
  st r15, r14, 40, any, keep
  lip r7, P_3
  ld r7, r7, 0, any, keep
  ldi r11, 3
  ldi r10, 7
  ldi r6, 56
  ldi r8, 255
  ldi r9, 32
  ;@ line examples/c/calculator.c:27 in 1
  ld r5, r7, 0, any, keep
  and r0, r5, r10
  ldi r12, 0
  sub r0, r12, r0
  lea r0, r5, r0
  shl r1, r5, r11
  ld r0, r0, 0, any, keep
  shr r0, r0, r1
  shl r0, r0, r6
  sar r1, r0, r6
  and r0, r1, r8
  eq r0, r0, r9
  bz r0, L68
L74:
  ldi r4, 0
L67:
  ;@ line examples/c/calculator.c:28 in 1
  addi r3, r4, 1
  add r2, r5, r3
  isptr r0, r5
  bz r0, L78
  ldi r0, 54
  shr r0, r5, r0
  xor r1, r2, r5
  shr r1, r1, r0
  bnz r1, L78
  lea r2, r5, r3
L78:
  st r7, r2, 0, any, keep
  ;@ line examples/c/calculator.c:27 in 1
  addi r0, r4, 1
  lea r1, r5, r0
  and r0, r1, r10
  ldi r12, 0
  sub r0, r12, r0
  lea r0, r1, r0
  shl r1, r1, r11
  ld r0, r0, 0, any, keep
  shr r0, r0, r1
  shl r0, r0, r6
  sar r1, r0, r6
  and r0, r1, r8
  eq r0, r0, r9
  bz r0, L68
L76:
  addi r4, r4, 1
  br L67
L68:
  ld r3, r7, 0, any, keep
  ;@ line examples/c/calculator.c:36
  ldi r13, 40
  eq r0, r1, r13
  bz r0, L70
L69:
  ;@ line examples/c/calculator.c:37
  ldi r13, 1
  add r2, r3, r13
  isptr r0, r3
  bz r0, L79
  ldi r0, 54
  shr r0, r3, r0
  xor r1, r2, r3
  shr r1, r1, r0
  bnz r1, L79
  lea r2, r3, r13
L79:
  st r7, r2, 0, any, keep
  ;@ line examples/c/calculator.c:38
  lip r14, 2
  br sum
  ;@ line examples/c/calculator.c:39
  ld r3, r7, 0, any, keep
  ldi r13, 1
  add r2, r3, r13
  isptr r0, r3
  bz r0, L80
  ldi r0, 54
  shr r0, r3, r0
  xor r1, r2, r3
  shr r1, r1, r0
  bnz r1, L80
  lea r2, r3, r13
L80:
  st r7, r2, 0, any, keep
  ;@ line examples/c/calculator.c:40
  br L73
L70:
  and r0, r3, r10
  ldi r12, 0
  sub r0, r12, r0
  lea r0, r3, r0
  shl r1, r3, r11
  ld r0, r0, 0, any, keep
  shr r0, r0, r1
  shl r0, r0, r6
  sar r0, r0, r6
  addi r0, r0, -48
  ldi r13, 10
  ltu r0, r0, r13
  bz r0, L72
L71:
  ;@ line examples/c/calculator.c:41
  mov r0, r3
  mov r1, r7
  ldi r2, 10
  lip r14, 2
  br strtol
  mov r4, r0
  ;@ line examples/c/calculator.c:22 in 2
  ;@ var code 4 0 in 2
  ;@ var operand 5 r4 in 2
  lip r12, P_4
  ld r12, r12, 0, any, keep
  ld r0, r12, -4, any, keep
  sar r3, r0, r9
  addi r2, r3, 1
  lip r12, P_4
  ld r12, r12, 0, any, keep
  ld r0, r12, -4, any, keep
  shl r0, r0, r9
  shr r1, r0, r9
  shl r0, r2, r9
  or r0, r1, r0
  lip r12, P_4
  ld r12, r12, 0, any, keep
  st r12, r0, -4, any, keep
  ldi r13, 4
  shl r2, r3, r13
  lip r12, P_5
  ld r12, r12, 0, any, keep
  lea r0, r12, r2
  ld r1, r0, 0, any, keep
  ldi r13, 0
  xor r0, r1, r13
  ldi r13, 0
  ldhi r13, 4294967295
  and r0, r0, r13
  xor r1, r1, r0
  lip r12, P_5
  ld r12, r12, 0, any, keep
  lea r0, r12, r2
  st r0, r1, 0, any, keep
  ldi r13, 4
  shl r0, r3, r13
  addi r0, r0, 8
  lip r12, P_5
  ld r12, r12, 0, any, keep
  lea r0, r12, r0
  st r0, r4, 0, any, keep
  ;@ line examples/c/calculator.c:42
  ;@ var operand 5 - in 2
  br L73
L72:
  ;@ line examples/c/calculator.c:43
  ;@ var code 4 - in 2
  ldi r13, 1
  add r2, r3, r13
  isptr r0, r3
  bz r0, L81
  ldi r0, 54
  shr r0, r3, r0
  xor r1, r2, r3
  shr r1, r1, r0
  bnz r1, L81
  lea r2, r3, r13
L81:
  st r7, r2, 0, any, keep
  and r0, r3, r10
  ldi r12, 0
  sub r0, r12, r0
  lea r0, r3, r0
  shl r1, r3, r11
  ld r0, r0, 0, any, keep
  shr r0, r0, r1
  shl r0, r0, r6
  sar r0, r0, r6
  addi r4, r0, -97
  ;@ line examples/c/calculator.c:22 in 3
  ;@ var code 4 1 in 3
  ;@ var operand 5 r4 in 3
  lip r12, P_4
  ld r12, r12, 0, any, keep
  ld r0, r12, -4, any, keep
  sar r3, r0, r9
  addi r2, r3, 1
  lip r12, P_4
  ld r12, r12, 0, any, keep
  ld r0, r12, -4, any, keep
  shl r0, r0, r9
  shr r1, r0, r9
  shl r0, r2, r9
  or r0, r1, r0
  lip r12, P_4
  ld r12, r12, 0, any, keep
  st r12, r0, -4, any, keep
  ldi r13, 4
  shl r2, r3, r13
  lip r12, P_5
  ld r12, r12, 0, any, keep
  lea r0, r12, r2
  ld r1, r0, 0, any, keep
  ldi r13, 1
  xor r0, r1, r13
  ldi r13, 0
  ldhi r13, 4294967295
  and r0, r0, r13
  xor r1, r1, r0
  lip r12, P_5
  ld r12, r12, 0, any, keep
  lea r0, r12, r2
  st r0, r1, 0, any, keep
  ldi r13, 4
  shl r0, r3, r13
  addi r0, r0, 8
  lip r12, P_5
  ld r12, r12, 0, any, keep
  lea r0, r12, r0
  st r0, r4, 0, any, keep
L73:
  ;@ line examples/c/calculator.c:45
  ;@ var code 4 - in 3
  ;@ var operand 5 - in 3
  ld r7, r15, 0, any, keep
  ld r8, r15, 8, any, keep
  ld r9, r15, 16, any, keep
  ld r10, r15, 24, any, keep
  ld r11, r15, 32, any, keep
  ld r14, r15, 40, any, keep
  leai r15, r15, 48
  jmp r14
strtol:
  ;@ frame back 16 caller at 24
  ldi r13, 15
  and r13, r15, r13
  ldi r12, -48
  sub r13, r12, r13
  lea r12, r15, r13
  st r12, r15, 24, any, keep
  mov r15, r12
  st r15, r7, 8, any, keep
  st r15, r14, 16, any, keep
  leai r12, r15, 32
  ldi r14, 4
  subseg r12, r12, r14
  st r15, r12, 0, any, keep
  ldi r7, 32
  mov r3, r2
  mov r2, r1
  mov r1, r0
  ld r0, r15, 0, any, keep
  lip r14, 2
  br number_in
  ld r0, r15, 40, any, keep
  sar r0, r0, r7
  bz r0, L84
L83:
  ld r0, r15, 40, any, keep
  shl r0, r0, r7
  sar r2, r0, r7
  br L85
L84:
  ld r1, r15, 32, any, keep
  ld r0, r15, 40, any, keep
  shl r0, r0, r7
  sar r2, r0, r7
  ldi r13, 2147483647
  ldhi r13, 4294967295
  add r0, r2, r13
  ltu r0, r0, r1
  bz r0, L86
L85:
  lip r12, P_12
  ld r12, r12, 0, any, keep
  ld r0, r12, -4, any, keep
  shl r0, r0, r7
  shr r1, r0, r7
  ldi r12, 34
  shl r0, r12, r7
  or r0, r1, r0
  lip r12, P_12
  ld r12, r12, 0, any, keep
  st r12, r0, -4, any, keep
  ldi r0, -2147483648
  ldhi r0, 0
  bnz r2, L87
  ldi r0, 2147483647
  ldhi r0, 4294967295
L89:
  br L87
L86:
  ldi r12, 0
  sub r0, r12, r1
  bnz r2, L87
  mov r0, r1
L90:
L87:
  ld r7, r15, 8, any, keep
  ld r14, r15, 16, any, keep
  ld r15, r15, 24, any, keep
  jmp r14
number_in:
  ;@ frame back 56 caller by 64
  leai r15, r15, -64
  st r15, r7, 16, any, keep
  st r15, r8, 24, any, keep
  st r15, r9, 32, any, keep
  st r15, r10, 40, any, keep
  st r15, r11, 48, any, keep
  st r15, r14, 56, any, keep
  st r15, r2, 8, any, keep
  st r15, r3, 0, any, keep
  mov r11, r0
  mov r10, r1
  ldi r8, 0
  lip r2, P_12
  ld r2, r2, 0, any, keep
  ldi r9, 32
  ldi r5, 56
  ldi r6, -5
  st r11, r8, 0, any, keep
  st r11, r8, 8, any, keep
  ld r12, r15, 8, any, keep
  bz r12, L93
L92:
  ld r12, r15, 8, any, keep
  st r12, r10, 0, any, keep
L93:
  ld r12, r15, 0, any, keep
  ldi r13, 1
  eq r1, r12, r13
  ldi r12, 36
  ld r13, r15, 0, any, keep
  ltu r0, r12, r13
  or r0, r0, r1
  bnz r0, L94
L112:
  mov r4, r8
  br L95
L94:
  ld r0, r2, -4, any, keep
  shl r0, r0, r9
  shr r1, r0, r9
  ldi r12, 22
  shl r0, r12, r9
  or r0, r1, r0
  st r2, r0, -4, any, keep
  br L111
L95:
  lea r1, r10, r4
  ldi r13, 7
  and r0, r1, r13
  sub r0, r8, r0
  lea r0, r1, r0
  ldi r13, 3
  shl r1, r1, r13
  ld r0, r0, 0, any, keep
  shr r0, r0, r1
  shl r0, r0, r5
  sar r3, r0, r5
  ldi r13, 255
  and r2, r3, r13
  eq r0, r2, r9
  eq r1, r0, r8
  addi r0, r2, -14
  ltu r0, r0, r6
  and r0, r1, r0
  addi r7, r4, 1
  bnz r0, L96
L113:
  mov r4, r7
  br L95
L96:
  ldi r13, 43
  eq r0, r3, r13
  bnz r0, L97
  ldi r13, 45
  eq r0, r3, r13
  bnz r0, L97
L114:
  mov r7, r4
  br L98
L97:
  ldi r13, 45
  eq r0, r2, r13
  ld r1, r11, 8, any, keep
  xor r0, r1, r0
  ldi r13, 0
  ldhi r13, 4294967295
  and r0, r0, r13
  xor r0, r1, r0
  st r11, r0, 8, any, keep
  lea r1, r10, r7
  ldi r13, 7
  and r0, r1, r13
  sub r0, r8, r0
  lea r0, r1, r0
  ldi r13, 3
  shl r1, r1, r13
  ld r0, r0, 0, any, keep
  shr r0, r0, r1
  shl r0, r0, r5
  sar r3, r0, r5
L98:
  ldi r13, 48
  eq r0, r3, r13
  bnz r0, L99
L115:
  ldi r0, 10
  br L101
L99:
  addi r0, r7, 1
  lea r1, r10, r0
  ldi r13, 7
  and r0, r1, r13
  sub r0, r8, r0
  lea r0, r1, r0
  ldi r13, 3
  shl r1, r1, r13
  ld r0, r0, 0, any, keep
  shr r0, r0, r1
  shl r0, r0, r5
  sar r0, r0, r5
  ldi r13, -33
  and r0, r0, r13
  ldi r13, 88
  eq r0, r0, r13
  bnz r0, L100
L116:
  ldi r0, 8
  br L101
L100:
  addi r3, r7, 2
  lea r1, r10, r3
  ldi r13, 7
  and r0, r1, r13
  sub r0, r8, r0
  lea r0, r1, r0
  ldi r13, 3
  shl r1, r1, r13
  ld r0, r0, 0, any, keep
  shr r0, r0, r1
  ldi r13, 255
  and r1, r0, r13
  addi r0, r1, -48
  ldi r13, 10
  ltu r2, r0, r13
  ldi r13, 223
  and r0, r1, r13
  addi r0, r0, -65
  ldi r13, 6
  ltu r0, r0, r13
  or r1, r2, r0
  ld r12, r15, 0, any, keep
  ldi r13, -17
  and r0, r12, r13
  eq r0, r0, r8
  and r0, r0, r1
  bnz r0, L117
L118:
  ldi r0, 8
  br L101
L117:
  mov r7, r3
  ldi r6, 16
  br L102
L101:
  ld r12, r15, 0, any, keep
  ld r6, r15, 0, any, keep
  bnz r12, L102
  mov r6, r0
L126:
L102:
  mov r4, r8
  mov r5, r7
L103:
  lea r1, r10, r5
  ldi r13, 7
  and r0, r1, r13
  sub r0, r8, r0
  lea r0, r1, r0
  ldi r13, 3
  shl r1, r1, r13
  ld r0, r0, 0, any, keep
  shr r0, r0, r1
  ldi r13, 255
  and r1, r0, r13
  addi r3, r1, -48
  ldi r12, 9
  ltu r0, r12, r3
  bz r0, L105
L104:
  ldi r13, 223
  and r0, r1, r13
  addi r2, r0, -91
  or r0, r1, r9
  addi r1, r0, -87
  ldi r13, -26
  ltu r0, r2, r13
  ldi r3, 99
  bnz r0, L105
  mov r3, r1
L127:
L105:
  lts r0, r3, r6
  bz r0, L109
L106:
  ldi r13, -1
  xor r0, r3, r13
  divu r0, r0, r6
  ltu r0, r0, r4
  bz r0, L108
L107:
  leai r2, r11, 12
  ldi r13, 1
  ldi r14, 4
  and r0, r2, r14
  bnz r0, L128
  ld r0, r2, 0, any, keep
  xor r1, r0, r13
  shl r1, r1, r9
  shr r1, r1, r9
  xor r0, r0, r1
  st r2, r0, 0, any, keep
  br L108
L128:
  ld r0, r2, -4, any, keep
  shl r0, r0, r9
  shr r0, r0, r9
  shl r1, r13, r9
  or r0, r0, r1
  st r2, r0, -4, any, keep
L129:
L108:
  mul r0, r4, r6
  add r4, r0, r3
  st r11, r4, 0, any, keep
  addi r5, r5, 1
  br L103
L109:
  eq r0, r5, r7
  ld r12, r15, 8, any, keep
  bnz r12, L130
  ldi r0, 1
L130:
  bnz r0, L111
L110:
  add r2, r10, r5
  isptr r0, r10
  bz r0, L131
  ldi r0, 54
  shr r0, r10, r0
  xor r1, r2, r10
  shr r1, r1, r0
  bnz r1, L131
  lea r2, r10, r5
L131:
  ld r12, r15, 8, any, keep
  st r12, r2, 0, any, keep
L111:
  ld r7, r15, 16, any, keep
  ld r8, r15, 24, any, keep
  ld r9, r15, 32, any, keep
  ld r10, r15, 40, any, keep
  ld r11, r15, 48, any, keep
  ld r14, r15, 56, any, keep
  leai r15, r15, 64
  jmp r14
div_:
  ;@ function div_ at examples/c/calculator.c:70
  ;@ frame back - caller by 0
  mov r3, r1
  ldi r1, 63
  ;@ line examples/c/calculator.c:70
  ;@ var a 5 r0
  ;@ var b 5 r3
  bnz r3, L133
L135:
  ;@ var a 5 -
  ;@ var b 5 -
  ldi r0, 0
  br L134
L133:
  ;@ var a 5 r0
  ;@ var b 5 r3
  sar r2, r0, r1
  xor r0, r0, r2
  ;@ var a 5 -
  sub r4, r0, r2
  sar r1, r3, r1
  xor r0, r3, r1
  ;@ var b 5 -
  sub r0, r0, r1
  divu r0, r4, r0
  xor r1, r2, r1
  xor r0, r0, r1
  sub r0, r0, r1
L134:
  jmp r14
mul:
  ;@ function mul at examples/c/calculator.c:69
  ;@ frame back - caller by 0
  ;@ line examples/c/calculator.c:69
  ;@ var a 5 r0
  ;@ var b 5 r1
  mul r0, r1, r0
  ;@ var a 5 -
  ;@ var b 5 -
  jmp r14
sub:
  ;@ function sub at examples/c/calculator.c:68
  ;@ frame back - caller by 0
  ;@ line examples/c/calculator.c:68
  ;@ var a 5 r0
  ;@ var b 5 r1
  sub r0, r0, r1
  ;@ var a 5 -
  ;@ var b 5 -
  jmp r14
add:
  ;@ function add at examples/c/calculator.c:67
  ;@ frame back - caller by 0
  ;@ line examples/c/calculator.c:67
  ;@ var a 5 r0
  ;@ var b 5 r1
  add r0, r1, r0
  ;@ var a 5 -
  ;@ var b 5 -
  jmp r14
P_0: .ptr ro _str+1
P_1: .ptr ro _str_1+1
P_2: .ptr ro _str_2+11
P_3: .ptr rw at+0
P_4: .ptr rw length+4
P_5: .ptr rw program+0
P_6: .ptr rw top+4
P_7: .ptr rw c_stack+0
P_8: .ptr rw variables+48
P_9: .ptr ro operations+0
P_10: .ptr rw stdout+0
P_11: .ptr ro _str_3+4
P_12: .ptr rw errno+4
.segment _str 4
  ;@ unnamed at 1 constant
  .int 0x202a2036203a7800
  .int 0x2934202b203328
.segment _str_1 4
  ;@ unnamed at 1 constant
  .int 0x202f2078203a7900
  .int 0x303031202d2035
.segment _str_2 5
  ;@ unnamed at 11 constant
  .fill 1
  .int 0x7828203a7a000000
  .int 0x202a202979202b20
  .int 0x2979202d207828
.segment at 3
  ;@ global at 8 at 0 type 1
.segment length 3
  ;@ global length 4 at 4 type 3
.segment program 10
  ;@ global program 1024 at 0 type 10
.segment top 3
  ;@ global top 4 at 4 type 3
.segment operations 5
  ;@ global operations 32 at 0 type 12 constant
  .ptr xu add
  .ptr xu sub
  .ptr xu mul
  .ptr xu div_
.segment c_stack 7
  ;@ global stack 128 at 0 type 13
.segment variables 8
  ;@ global variables 208 at 48 type 14
.segment stdout 3
  ;@ global stdout 8 at 0
  .ptr rw files+8
.segment _str_3 3
  ;@ unnamed at 4 constant
  .int 0x203d2000000000
.segment errno 3
  ;@ global errno 4 at 4
.segment files 4
  ;@ global files 12 at 4
  .fill 1
  .int 0x200000001
.segment stack 16
.thread 0 0 none xu start
.reg 15 ptr rw stack+65472
;@ type 1 pointer 2
;@ type 2 base i1 char
;@ type 3 base i4 int
;@ type 4 enum u4 code PUSH=0 LOAD=1 STORE=2 ADD=3 SUB=4 MUL=5 DIV=6 END=7
;@ type 5 base i8 long
;@ type 6 pointer 7
;@ type 7 struct 16 instruction code:0:4 operand:64:5
;@ type 8 base u8 unsigned long
;@ type 9 array 20 2
;@ type 10 array 64 7
;@ type 11 pointer 0
;@ type 12 array 4 11
;@ type 13 array 16 5
;@ type 14 array 26 5
