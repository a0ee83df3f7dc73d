.segment text 14
start:
  ldi r0, 1
  ldi r1, 0
  lip r14, 2
  br main
  halt
main:
  ;@ function main at examples/c/words.c:48
  ;@ inlined 1 forget_all at examples/c/words.c:60
  ;@ inlined 2 say at examples/c/words.c:55
  ;@ inlined 3 say_number at examples/c/words.c:57
  ;@ frame back 56 caller at 64
  ;@ local digits 20 at 104 log 5 type 9 in 3
  ;@ local text 79 at 304 log 7 type 10
  ;@ local asked 40 at 152 log 6 type 11
  ldi r13, 127
  and r13, r15, r13
  ldi r12, -384
  sub r13, r12, r13
  lea r12, r15, r13
  st r12, r15, 64, any, keep
  mov r15, r12
  st r15, r7, 16, any, keep
  st r15, r8, 24, any, keep
  st r15, r9, 32, any, keep
  st r15, r10, 40, any, keep
  st r15, r11, 48, any, keep
  st r15, r14, 56, any, keep
  leai r10, r15, 104
  ldi r14, 5
  subseg r10, r10, r14
  leai r12, r15, 304
  ldi r14, 7
  subseg r12, r12, r14
  st r15, r12, 0, any, keep
  leai r12, r15, 152
  ldi r14, 6
  subseg r12, r12, r14
  st r15, r12, 8, any, keep
  lip r7, P_0
  ld r7, r7, 0, any, keep
  ldi r8, 0
  ldhi r8, 4294967295
  ldi r9, 32
  lip r11, P_1
  ld r11, r11, 0, any, keep
  ;@ line examples/c/words.c:50
  ld r0, r15, 0, any, keep
  lip r1, P_2
  ld r1, r1, 0, any, keep
  ldi r2, 79
  lip r14, 2
  br memcpy
  ;@ line examples/c/words.c:51
  mov r1, r7
  ld r0, r15, 0, any, keep
  lip r14, 2
  br strtok
  ;@ var word 1 r0
  bnz r0, L3
L2:
  ;@ line examples/c/words.c:53
  ;@ var word 1 -
  ldi r12, 0
  st r15, r12, 152, any, keep
  ldi r12, 0
  st r15, r12, 160, any, keep
  ldi r12, 0
  st r15, r12, 168, any, keep
  ldi r12, 0
  st r15, r12, 176, any, keep
  ldi r12, 0
  st r15, r12, 184, any, keep
  lip r12, P_3
  ld r12, r12, 0, any, keep
  st r15, r12, 152, any, keep
  lip r12, P_4
  ld r12, r12, 0, any, keep
  st r15, r12, 160, any, keep
  lip r12, P_5
  ld r12, r12, 0, any, keep
  st r15, r12, 168, any, keep
  lip r12, P_6
  ld r12, r12, 0, any, keep
  st r15, r12, 176, any, keep
  lip r12, P_7
  ld r12, r12, 0, any, keep
  st r15, r12, 184, any, keep
  ;@ var i 3 0
  ldi r12, 0
  st r15, r12, 0, any, keep
  ;@ line examples/c/words.c:54
  br L8
L3:
  ;@ line examples/c/words.c:52
  ;@ var i 3 -
  ;@ var word 1 r0
  lip r14, 2
  br find
  mov r2, r0
  ;@ var word 1 -
  ld r0, r2, 16, any, keep
  addi r0, r0, 1
  ld r1, r2, 16, any, keep
  xor r0, r1, r0
  and r0, r0, r8
  xor r0, r1, r0
  st r2, r0, 16, any, keep
  ;@ line examples/c/words.c:51
  mov r1, r7
  ldi r0, 0
  lip r14, 2
  br strtok
  ;@ var word 1 r0
  bz r0, L2
  br L3
L4:
  ;@ line examples/c/words.c:54
  ;@ var word 1 -
  ;@ var i 3 r9 in 1
  ldi r13, 3
  shl r8, r9, r13
  ;@ line examples/c/words.c:40 in 1
  lea r0, r11, r8
  ld r7, r0, 0, any, keep
  bz r7, L6
L5:
  ;@ line examples/c/words.c:42 in 1
  ;@ var gone 4 r7 in 1
  ld r1, r7, 0, any, keep
  lea r0, r11, r8
  st r0, r1, 0, any, keep
  ;@ line examples/c/words.c:43 in 1
  ld r0, r7, 8, any, keep
  lip r14, 2
  br free
  ;@ line examples/c/words.c:44 in 1
  mov r0, r7
  lip r14, 2
  br free
  ;@ line examples/c/words.c:40 in 1
  ;@ var gone 4 - in 1
  lea r0, r11, r8
  ld r7, r0, 0, any, keep
  bnz r7, L5
L6:
  ;@ line examples/c/words.c:39 in 1
  addi r9, r9, 1
  ldi r13, 16
  eq r0, r9, r13
  bz r0, L4
L7:
  ;@ line examples/c/words.c:61
  ;@ var i 3 - in 1
  ldi r0, 0
  ld r7, r15, 16, any, keep
  ld r8, r15, 24, any, keep
  ld r9, r15, 32, any, keep
  ld r10, r15, 40, any, keep
  ld r11, r15, 48, any, keep
  ld r14, r15, 56, any, keep
  ld r15, r15, 64, any, keep
  jmp r14
L8:
  ;@ line examples/c/words.c:55
  ;@ var i 3 s0
  ld r12, r15, 0, any, keep
  ldi r13, 3
  shl r0, r12, r13
  ld r12, r15, 8, any, keep
  lea r0, r12, r0
  ld r7, r0, 0, any, keep
  ;@ line examples/c/say.h:8 in 2
  ;@ var text 6 r7 in 2
  lip r12, P_8
  ld r12, r12, 0, any, keep
  ld r1, r12, 0, any, keep
  mov r0, r7
  lip r14, 2
  br fputs
  ;@ line examples/c/words.c:56
  mov r0, r9
  lip r14, 2
  br putchar
  ;@ line examples/c/words.c:57
  mov r0, r7
  lip r14, 2
  br find
  ;@ var text 6 - in 2
  ld r0, r0, 16, any, keep
  shl r0, r0, r9
  sar r0, r0, r9
  ;@ line examples/c/say.h:15 in 3
  ;@ var number 7 r0 in 3
  ;@ var length 3 0 in 3
  ldi r12, 0
  sub r2, r12, r0
  ldi r13, 0
  lts r1, r0, r13
  mov r7, r2
  bnz r1, L25
  mov r7, r0
L25:
  ;@ line examples/c/say.h:16 in 3
  ;@ var rest 8 r7 in 3
  ldi r13, 0
  lts r0, r0, r13
  ;@ var number 7 - in 3
  bz r0, L10
L9:
  ;@ line examples/c/say.h:17 in 3
  ldi r0, 45
  lip r14, 2
  br putchar
L10:
  ldi r1, 0
L11:
  ;@ line examples/c/say.h:20 in 3
  ;@ var length 3 r1 in 3
  ldi r13, 10
  divu r5, r7, r13
  ldi r13, 10
  mul r0, r5, r13
  sub r0, r7, r0
  ;@ line examples/c/say.h:19 in 3
  ldi r13, 48
  or r4, r0, r13
  addi r8, r1, 1
  shl r0, r8, r9
  sar r6, r0, r9
  ;@ var length 3 r8 in 3
  addi r1, r1, 8
  ldi r13, -8
  and r0, r1, r13
  leab r3, r10, r0
  ldi r13, 3
  shl r2, r1, r13
  ld r1, r3, 0, any, keep
  shr r0, r1, r2
  xor r0, r0, r4
  ldi r13, 255
  and r0, r0, r13
  shl r0, r0, r2
  xor r0, r1, r0
  st r3, r0, 0, any, keep
  ;@ var rest 8 r5 in 3
  ldi r13, 10
  ltu r0, r7, r13
  bnz r0, L12
L17:
  ;@ var length 3 r6 in 3
  mov r1, r6
  ;@ var length 3 - in 3
  mov r7, r5
  ;@ var rest 8 - in 3
  br L11
L12:
  ;@ line examples/c/say.h:21 in 3
  ;@ var length 3 r8 in 3
  bz r6, L14
L13:
  ;@ line examples/c/say.h:22 in 3
  addi r8, r8, -1
  ;@ var length 3 - in 3
  shl r0, r8, r9
  sar r7, r0, r9
  ;@ var length 3 r8 in 3
  addi r1, r7, 8
  ldi r13, -8
  and r0, r1, r13
  leab r0, r10, r0
  ldi r13, 3
  shl r1, r1, r13
  ld r0, r0, 0, any, keep
  shr r0, r0, r1
  ldi r13, 56
  shl r0, r0, r13
  ldi r13, 56
  sar r0, r0, r13
  lip r14, 2
  br putchar
  ;@ line examples/c/say.h:21 in 3
  bnz r7, L13
L14:
  ;@ line examples/c/words.c:58
  ;@ var length 3 - in 3
  ldi r0, 10
  lip r14, 2
  br putchar
  ;@ line examples/c/words.c:54
  ld r12, r15, 0, any, keep
  addi r12, r12, 1
  st r15, r12, 0, any, keep
  ld r12, r15, 0, any, keep
  ldi r13, 5
  eq r0, r12, r13
  bz r0, L8
L20:
  ;@ var i 3 -
  ldi r9, 0
  br L4
free:
  ;@ frame back 32 caller by 40
  leai r15, r15, -40
  st r15, r7, 0, any, keep
  st r15, r8, 8, any, keep
  st r15, r9, 16, any, keep
  st r15, r10, 24, any, keep
  st r15, r14, 32, any, keep
  mov r2, r0
  ldi r0, 4194303
  ldhi r0, 4294967295
  lip r3, P_9
  ld r3, r3, 0, any, keep
  ldi r8, 54
  ldi r6, 63
  ldi r5, 1
  bz r2, L31
L27:
  and r1, r2, r0
  and r0, r3, r0
  sub r1, r1, r0
  ldi r13, 3
  shr r7, r1, r13
  shr r0, r2, r8
  and r0, r0, r6
  addi r0, r0, -3
  shl r10, r5, r0
  and r0, r7, r6
  shl r9, r5, r0
  ldi r13, 9
  shr r4, r1, r13
  shr r0, r3, r8
  and r0, r0, r6
  addi r0, r0, -3
  shl r0, r5, r0
  ldi r13, 6
  shr r2, r0, r13
  shr r0, r3, r8
  and r0, r0, r6
  addi r0, r0, -3
  shl r0, r5, r0
  ldi r13, 64
  ltu r1, r0, r13
  mov r0, r5
  bnz r1, L33
  mov r0, r2
L33:
  add r0, r4, r0
  ldi r13, 3
  shl r2, r0, r13
  shr r0, r3, r8
  and r0, r0, r6
  addi r0, r0, -3
  shl r0, r5, r0
  ltu r0, r7, r0
  bz r0, L29
L28:
  lea r0, r3, r2
  ld r1, r0, 0, any, keep
  and r0, r1, r9
  bnz r0, L30
L29:
  trap 8
  lea r0, r3, r2
  ld r1, r0, 0, any, keep
L30:
  xor r1, r1, r9
  lea r0, r3, r2
  st r0, r1, 0, any, keep
  ldi r12, 0
  sub r0, r12, r10
  and r0, r7, r0
  mov r1, r10
  lip r14, 2
  br change
L31:
  ld r7, r15, 0, any, keep
  ld r8, r15, 8, any, keep
  ld r9, r15, 16, any, keep
  ld r10, r15, 24, any, keep
  ld r14, r15, 32, any, keep
  leai r15, r15, 40
  jmp r14
change:
  ;@ frame back - caller by 8
  leai r15, r15, -8
  st r15, r7, 0, any, keep
  mov r2, r0
  mov r5, r1
  ldi r3, -1
  lip r4, P_9
  ld r4, r4, 0, any, keep
  ldi r7, 3
  shl r0, r3, r5
  xor r1, r0, r3
  ldi r13, 64
  ltu r0, r5, r13
  bnz r0, L39
  mov r1, r3
L39:
  ldi r13, 63
  and r0, r2, r13
  shl r6, r1, r0
  ldi r13, 6
  shr r3, r2, r13
  addi r0, r2, -1
  add r0, r0, r5
  ldi r13, 6
  shr r5, r0, r13
  ltu r0, r5, r3
  bz r0, L36
L35:
  ld r7, r15, 0, any, keep
  leai r15, r15, 8
  jmp r14
L36:
  shl r2, r3, r7
  lea r0, r4, r2
  ld r0, r0, 0, any, keep
  xor r1, r0, r6
  lea r0, r4, r2
  st r0, r1, 0, any, keep
  addi r1, r3, 1
  eq r0, r3, r5
  bnz r0, L35
L38:
  mov r3, r1
  br L36
putchar:
  ;@ frame back - caller by 0
  out r0
  ldi r13, 255
  and r0, r0, r13
  jmp r14
fputs:
  ;@ frame back - caller by 16
  leai r15, r15, -16
  st r15, r7, 0, any, keep
  st r15, r8, 8, any, keep
  mov r5, r0
  ldi r6, 3
  ldi r4, 0
  ldi r7, 7
  ldi r3, 56
  ldi r8, 255
  and r0, r5, r7
  sub r0, r4, r0
  lea r0, r5, r0
  shl r1, r5, r6
  ld r0, r0, 0, any, keep
  shr r0, r0, r1
  shl r0, r0, r3
  sar r1, r0, r3
  and r0, r1, r8
  bz r0, L42
L44:
  mov r2, r4
  br L43
L42:
  mov r0, r4
  ld r7, r15, 0, any, keep
  ld r8, r15, 8, any, keep
  leai r15, r15, 16
  jmp r14
L43:
  out r1
  addi r2, r2, 1
  lea r1, r5, r2
  and r0, r1, r7
  sub r0, r4, r0
  lea r0, r1, r0
  shl r1, r1, r6
  ld r0, r0, 0, any, keep
  shr r0, r0, r1
  shl r0, r0, r3
  sar r1, r0, r3
  and r0, r1, r8
  bz r0, L42
  br L43
find:
  ;@ function find at examples/c/words.c:24
  ;@ inlined 1 hash at examples/c/words.c:26
  ;@ frame back 48 caller by 56
  leai r15, r15, -56
  st r15, r7, 8, any, keep
  st r15, r8, 16, any, keep
  st r15, r9, 24, any, keep
  st r15, r10, 32, any, keep
  st r15, r11, 40, any, keep
  st r15, r14, 48, any, keep
  mov r9, r0
  ldi r6, 3
  ldi r11, 0
  ldi r4, 7
  ldi r5, 255
  ldi r7, 16777619
  lip r8, P_1
  ld r8, r8, 0, any, keep
  ;@ line examples/c/words.c:19 in 1
  ;@ var word 6 r9
  ;@ var word 6 r9 in 1
  ;@ var h 12 -2128831035 in 1
  and r0, r9, r4
  sub r0, r11, r0
  lea r0, r9, r0
  shl r1, r9, r6
  ld r0, r0, 0, any, keep
  shr r0, r0, r1
  and r0, r0, r5
  bz r0, L55
L56:
  ldi r3, -2128831035
  mov r2, r11
  br L47
L55:
  ldi r0, 5
  br L49
L47:
  ;@ line examples/c/words.c:20 in 1
  ;@ var h 12 r3 in 1
  ;@ var word 6 r9+r2 in 1
  xor r0, r3, r0
  ;@ var h 12 - in 1
  mul r3, r0, r7
  ;@ line examples/c/words.c:19 in 1
  ;@ var h 12 r3 in 1
  ;@ var word 6 r9+r2+1 in 1
  addi r0, r2, 1
  lea r1, r9, r0
  and r0, r1, r4
  sub r0, r11, r0
  lea r0, r1, r0
  shl r1, r1, r6
  ld r0, r0, 0, any, keep
  shr r0, r0, r1
  and r0, r0, r5
  bz r0, L48
L57:
  addi r2, r2, 1
  ;@ var h 12 - in 1
  br L47
L48:
  ;@ line examples/c/words.c:21 in 1
  ;@ var word 6 - in 1
  ;@ var h 12 r3 in 1
  ldi r13, 15
  and r0, r3, r13
L49:
  ;@ line examples/c/words.c:26
  ;@ var h 12 - in 1
  shl r10, r0, r6
  ;@ line examples/c/words.c:27
  ;@ var place 13 @chains+r10
  lea r0, r8, r10
  ld r7, r0, 0, any, keep
  bnz r7, L50
L58:
  ;@ var place 13 -
  st r15, r8, 0, any, keep
  br L53
L50:
  ;@ line examples/c/words.c:28
  ld r0, r7, 8, any, keep
  mov r1, r9
  lip r14, 2
  br strcmp
  bz r0, L54
L51:
  ;@ line examples/c/words.c:27
  ;@ var place 13 r7
  ld r0, r7, 0, any, keep
  bz r0, L52
L61:
  ;@ var place 13 -
  mov r7, r0
  ;@ var place 13 r7
  br L50
L52:
  mov r10, r11
  st r15, r7, 0, any, keep
L53:
  ;@ line examples/c/words.c:30
  ;@ var place 13 -
  ldi r0, 24
  lip r14, 2
  br malloc
  mov r7, r0
  ;@ line examples/c/words.c:31
  ;@ var made 4 r7
  st r7, r11, 0, any, keep
  ;@ line examples/c/words.c:32
  mov r0, r9
  lip r14, 2
  br strlen
  addi r0, r0, 1
  lip r14, 2
  br malloc
  mov r8, r0
  mov r0, r8
  mov r1, r9
  lip r14, 2
  br strcpy
  ;@ var word 6 -
  st r7, r8, 8, any, keep
  ;@ line examples/c/words.c:33
  ld r1, r7, 16, any, keep
  xor r0, r1, r11
  ldi r13, 0
  ldhi r13, 4294967295
  and r0, r0, r13
  xor r0, r1, r0
  st r7, r0, 16, any, keep
  ;@ line examples/c/words.c:34
  ld r12, r15, 0, any, keep
  lea r0, r12, r10
  st r0, r7, 0, any, keep
L54:
  ;@ line examples/c/words.c:35
  ;@ var made 4 -
  mov r0, r7
  ld r7, r15, 8, any, keep
  ld r8, r15, 16, any, keep
  ld r9, r15, 24, any, keep
  ld r10, r15, 32, any, keep
  ld r11, r15, 40, any, keep
  ld r14, r15, 48, any, keep
  leai r15, r15, 56
  jmp r14
strcpy:
  ;@ frame back - caller by 40
  leai r15, r15, -40
  st r15, r7, 0, any, keep
  st r15, r8, 8, any, keep
  st r15, r9, 16, any, keep
  st r15, r10, 24, any, keep
  st r15, r11, 32, any, keep
  mov r11, r0
  mov r9, r1
  ldi r7, 3
  ldi r6, 0
  ldi r8, 7
  ldi r10, 255
  mov r5, r6
L63:
  lea r1, r9, r5
  and r0, r1, r8
  sub r0, r6, r0
  lea r0, r1, r0
  shl r1, r1, r7
  ld r0, r0, 0, any, keep
  shr r4, r0, r1
  lea r1, r11, r5
  and r0, r1, r8
  sub r0, r6, r0
  lea r3, r1, r0
  shl r2, r1, r7
  ld r1, r3, 0, any, keep
  shr r0, r1, r2
  xor r0, r0, r4
  and r0, r0, r10
  shl r0, r0, r2
  xor r0, r1, r0
  st r3, r0, 0, any, keep
  addi r2, r5, 1
  lea r1, r9, r5
  and r0, r1, r8
  sub r0, r6, r0
  lea r0, r1, r0
  shl r1, r1, r7
  ld r0, r0, 0, any, keep
  shr r0, r0, r1
  and r0, r0, r10
  bz r0, L64
L65:
  mov r5, r2
  br L63
L64:
  mov r0, r11
  ld r7, r15, 0, any, keep
  ld r8, r15, 8, any, keep
  ld r9, r15, 16, any, keep
  ld r10, r15, 24, any, keep
  ld r11, r15, 32, any, keep
  leai r15, r15, 40
  jmp r14
strlen:
  ;@ frame back - caller by 8
  leai r15, r15, -8
  st r15, r7, 0, any, keep
  mov r3, r0
  ldi r5, 3
  ldi r4, 0
  ldi r6, 7
  ldi r7, 255
  mov r2, r4
L67:
  lea r1, r3, r2
  and r0, r1, r6
  sub r0, r4, r0
  lea r0, r1, r0
  shl r1, r1, r5
  ld r0, r0, 0, any, keep
  shr r0, r0, r1
  and r0, r0, r7
  addi r1, r2, 1
  bz r0, L68
L69:
  mov r2, r1
  br L67
L68:
  mov r0, r2
  ld r7, r15, 0, any, keep
  leai r15, r15, 8
  jmp r14
malloc:
  ;@ frame back 72 caller by 80
  leai r15, r15, -80
  st r15, r7, 32, any, keep
  st r15, r8, 40, any, keep
  st r15, r9, 48, any, keep
  st r15, r10, 56, any, keep
  st r15, r11, 64, any, keep
  st r15, r14, 72, any, keep
  st r15, r0, 24, any, keep
  lip r11, P_9
  ld r11, r11, 0, any, keep
  ldi r9, 0
  ldi r10, 3
  lip r12, P_10
  ld r12, r12, 0, any, keep
  ld r0, r12, 0, any, keep
  bnz r0, L74
L71:
  ldi r13, 54
  shr r0, r11, r13
  ldi r13, 63
  and r0, r0, r13
  addi r0, r0, -3
  ldi r12, 1
  shl r0, r12, r0
  ldi r13, 6
  shr r2, r0, r13
  ldi r13, 54
  shr r0, r11, r13
  ldi r13, 63
  and r0, r0, r13
  addi r0, r0, -3
  ldi r12, 1
  shl r0, r12, r0
  ldi r13, 64
  ltu r1, r0, r13
  ldi r0, 1
  bnz r1, L87
  mov r0, r2
L87:
  ldi r13, 1
  shl r0, r0, r13
  lip r12, P_10
  ld r12, r12, 0, any, keep
  st r12, r0, 0, any, keep
  ldi r13, 54
  shr r0, r11, r13
  ldi r13, 63
  and r0, r0, r13
  addi r0, r0, -3
  ldi r12, 1
  shl r0, r12, r0
  ldi r13, 6
  shr r2, r0, r13
  ldi r13, 54
  shr r0, r11, r13
  ldi r13, 63
  and r0, r0, r13
  addi r0, r0, -3
  ldi r12, 1
  shl r0, r12, r0
  ldi r13, 64
  ltu r1, r0, r13
  ldi r0, 1
  bnz r1, L88
  mov r0, r2
L88:
  ldi r13, 1
  shl r1, r0, r13
  ldi r13, 54
  shr r0, r11, r13
  ldi r13, 63
  and r0, r0, r13
  addi r0, r0, -3
  ldi r12, 1
  shl r0, r12, r0
  ltu r0, r1, r0
  bnz r0, L73
L72:
  lip r12, P_10
  ld r12, r12, 0, any, keep
  st r12, r9, 0, any, keep
  ld r0, r15, 24, any, keep
  lip r14, 2
  br refuse
  mov r4, r9
  mov r8, r9
  br L83
L73:
  ldi r13, 54
  shr r0, r11, r13
  ldi r13, 63
  and r0, r0, r13
  addi r0, r0, -3
  ldi r12, 1
  shl r0, r12, r0
  ldi r13, 6
  shr r2, r0, r13
  ldi r13, 54
  shr r0, r11, r13
  ldi r13, 63
  and r0, r0, r13
  addi r0, r0, -3
  ldi r12, 1
  shl r0, r12, r0
  ldi r13, 64
  ltu r1, r0, r13
  ldi r0, 1
  bnz r1, L89
  mov r0, r2
L89:
  ldi r13, 1
  shl r1, r0, r13
  mov r0, r9
  lip r14, 2
  br change
L74:
  ldi r13, 54
  shr r0, r11, r13
  ldi r13, 63
  and r0, r0, r13
  addi r0, r0, -3
  ldi r12, 1
  shl r0, r12, r0
  ldi r13, 2
  shl r0, r0, r13
  ld r13, r15, 24, any, keep
  ltu r0, r0, r13
  bz r0, L76
L75:
  ld r0, r15, 24, any, keep
  lip r14, 2
  br refuse
  mov r4, r9
  mov r8, r9
  br L83
L76:
  ld r12, r15, 24, any, keep
  addi r0, r12, 7
  ldi r13, -8
  and r0, r0, r13
  ld r12, r15, 24, any, keep
  mov r13, r0
  bnz r12, L90
  ldi r13, 8
L90:
  st r15, r13, 16, any, keep
  mov r8, r10
L77:
  ldi r12, 1
  shl r12, r12, r8
  st r15, r12, 8, any, keep
  addi r1, r8, 1
  ld r12, r15, 8, any, keep
  ld r13, r15, 16, any, keep
  ltu r0, r12, r13
  bz r0, L78
L84:
  mov r8, r1
  br L77
L78:
  addi r0, r8, -3
  ldi r12, 1
  shl r7, r12, r0
  mov r0, r7
  lip r14, 2
  br find_2
  st r15, r0, 0, any, keep
  ldi r13, 54
  shr r0, r11, r13
  ldi r13, 63
  and r0, r0, r13
  addi r0, r0, -3
  ldi r12, 1
  shl r0, r12, r0
  ld r12, r15, 0, any, keep
  eq r0, r12, r0
  bz r0, L80
L79:
  ld r0, r15, 24, any, keep
  lip r14, 2
  br refuse
  mov r4, r9
  mov r8, r9
  br L83
L80:
  ld r12, r15, 0, any, keep
  shl r0, r12, r10
  leab r0, r11, r0
  subseg r8, r0, r8
  lip r12, P_11
  ld r12, r12, 0, any, keep
  ld r0, r12, 0, any, keep
  ld r12, r15, 0, any, keep
  ltu r0, r12, r0
  bz r0, L81
L85:
  mov r1, r9
  br L82
L81:
  mov r1, r7
  ld r0, r15, 0, any, keep
  lip r14, 2
  br change
  ld r12, r15, 0, any, keep
  add r0, r12, r7
  lip r12, P_10
  ld r12, r12, 0, any, keep
  st r12, r0, 0, any, keep
  lip r12, P_11
  ld r12, r12, 0, any, keep
  ld r1, r12, 0, any, keep
  ltu r2, r1, r0
  bnz r2, L91
  mov r0, r1
L91:
  lip r12, P_11
  ld r12, r12, 0, any, keep
  st r12, r0, 0, any, keep
  ld r12, r15, 8, any, keep
  ld r13, r15, 16, any, keep
  sub r4, r12, r13
  add r0, r8, r4
  ldi r13, 4194303
  ldhi r13, 4294967295
  and r1, r0, r13
  ldi r13, 4194303
  ldhi r13, 4294967295
  and r0, r11, r13
  sub r1, r1, r0
  shr r0, r1, r10
  ldi r13, 63
  and r0, r0, r13
  ldi r12, 1
  shl r5, r12, r0
  ldi r13, 9
  shr r3, r1, r13
  ldi r13, 54
  shr r0, r11, r13
  ldi r13, 63
  and r0, r0, r13
  addi r0, r0, -3
  ldi r12, 1
  shl r0, r12, r0
  ldi r13, 6
  shr r2, r0, r13
  ldi r13, 54
  shr r0, r11, r13
  ldi r13, 63
  and r0, r0, r13
  addi r0, r0, -3
  ldi r12, 1
  shl r0, r12, r0
  ldi r13, 64
  ltu r1, r0, r13
  ldi r0, 1
  bnz r1, L92
  mov r0, r2
L92:
  add r0, r3, r0
  shl r2, r0, r10
  lea r0, r11, r2
  ld r0, r0, 0, any, keep
  or r1, r0, r5
  lea r0, r11, r2
  st r0, r1, 0, any, keep
  br L83
L82:
  shl r0, r1, r10
  lea r0, r8, r0
  st r0, r9, 0, any, keep
  addi r1, r1, 1
  ltu r0, r1, r7
  bnz r0, L82
  br L81
L83:
  add r2, r8, r4
  isptr r0, r8
  bz r0, L93
  ldi r0, 54
  shr r0, r8, r0
  xor r1, r2, r8
  shr r1, r1, r0
  bnz r1, L93
  lea r2, r8, r4
L93:
  mov r0, r2
  ld r7, r15, 32, any, keep
  ld r8, r15, 40, any, keep
  ld r9, r15, 48, any, keep
  ld r10, r15, 56, any, keep
  ld r11, r15, 64, any, keep
  ld r14, r15, 72, any, keep
  leai r15, r15, 80
  jmp r14
find_2:
  ;@ frame back 56 caller by 64
  leai r15, r15, -64
  st r15, r7, 16, any, keep
  st r15, r8, 24, any, keep
  st r15, r9, 32, any, keep
  st r15, r10, 40, any, keep
  st r15, r11, 48, any, keep
  st r15, r14, 56, any, keep
  st r15, r0, 0, any, keep
  lip r9, P_9
  ld r9, r9, 0, any, keep
  ldi r11, 63
  lip r12, P_10
  ld r12, r12, 0, any, keep
  ld r1, r12, 0, any, keep
  ld r12, r15, 0, any, keep
  addi r0, r12, -1
  add r1, r0, r1
  ldi r12, 0
  ld r13, r15, 0, any, keep
  sub r0, r12, r13
  and r10, r1, r0
  ldi r13, 54
  shr r0, r9, r13
  and r0, r0, r11
  addi r0, r0, -3
  ldi r12, 1
  shl r0, r12, r0
  ld r12, r15, 0, any, keep
  add r12, r12, r0
  st r15, r12, 8, any, keep
  ldi r8, 0
L95:
  ld r13, r15, 0, any, keep
  add r1, r10, r13
  ldi r13, 54
  shr r0, r9, r13
  and r0, r0, r11
  addi r0, r0, -3
  ldi r12, 1
  shl r0, r12, r0
  ltu r0, r0, r1
  ldi r7, 0
  bnz r0, L110
  mov r7, r10
L110:
  and r0, r7, r11
  ldi r13, 0
  eq r1, r0, r13
  ld r12, r15, 0, any, keep
  ldi r13, 64
  ltu r0, r12, r13
  bnz r0, L111
  ldi r1, 0
L111:
  ldi r13, 54
  shr r0, r9, r13
  and r0, r0, r11
  addi r0, r0, -3
  ldi r12, 1
  shl r0, r12, r0
  ltu r0, r7, r0
  bnz r1, L112
  ldi r0, 0
L112:
  bz r0, L98
L96:
  ldi r13, 6
  shr r0, r7, r13
  ldi r13, 3
  shl r0, r0, r13
  lea r0, r9, r0
  ld r0, r0, 0, any, keep
  ldi r13, -1
  eq r0, r0, r13
  bz r0, L98
L97:
  addi r7, r7, 64
  addi r8, r8, 64
  ldi r13, 54
  shr r0, r9, r13
  and r0, r0, r11
  addi r0, r0, -3
  ldi r12, 1
  shl r0, r12, r0
  ltu r0, r7, r0
  bnz r0, L96
L98:
  ld r13, r15, 0, any, keep
  add r10, r7, r13
  ldi r13, 54
  shr r0, r9, r13
  and r0, r0, r11
  addi r0, r0, -3
  ldi r12, 1
  shl r0, r12, r0
  ltu r0, r0, r10
  bnz r0, L100
L99:
  mov r0, r7
  ld r1, r15, 0, any, keep
  lip r14, 2
  br is_free
  bnz r0, L101
L100:
  ld r13, r15, 0, any, keep
  add r8, r8, r13
  ld r12, r15, 8, any, keep
  ltu r0, r12, r8
  bz r0, L95
L108:
  ldi r13, 54
  shr r0, r9, r13
  and r0, r0, r11
  addi r0, r0, -3
  ldi r12, 1
  shl r7, r12, r0
L101:
  mov r0, r7
  ld r7, r15, 16, any, keep
  ld r8, r15, 24, any, keep
  ld r9, r15, 32, any, keep
  ld r10, r15, 40, any, keep
  ld r11, r15, 48, any, keep
  ld r14, r15, 56, any, keep
  leai r15, r15, 64
  jmp r14
is_free:
  ;@ frame back - caller by 8
  leai r15, r15, -8
  st r15, r7, 0, any, keep
  mov r4, r0
  mov r6, r1
  ldi r2, -1
  lip r3, P_9
  ld r3, r3, 0, any, keep
  ldi r7, 3
  shl r0, r2, r6
  xor r1, r0, r2
  ldi r13, 64
  ltu r0, r6, r13
  bnz r0, L123
  mov r1, r2
L123:
  ldi r13, 63
  and r0, r4, r13
  shl r5, r1, r0
  ldi r13, 6
  shr r2, r4, r13
  addi r0, r4, -1
  add r0, r0, r6
  ldi r13, 6
  shr r4, r0, r13
  ltu r0, r4, r2
  bz r0, L114
L119:
  ldi r0, 1
  br L118
L114:
  shl r0, r2, r7
  lea r0, r3, r0
  ld r0, r0, 0, any, keep
  and r0, r0, r5
  bz r0, L115
L121:
  ldi r0, 0
  br L118
L115:
  addi r1, r2, 1
  eq r0, r2, r4
  bnz r0, L117
L116:
  shl r0, r1, r7
  lea r0, r3, r0
  ld r0, r0, 0, any, keep
  and r0, r0, r5
  bnz r0, L117
L122:
  mov r2, r1
  br L115
L117:
  ltu r0, r2, r4
  ldi r13, 0
  eq r0, r0, r13
L118:
  ld r7, r15, 0, any, keep
  leai r15, r15, 8
  jmp r14
refuse:
  ;@ frame back - caller by 0
  lip r12, P_12
  ld r12, r12, 0, any, keep
  st r12, r0, 0, any, keep
  jmp r14
strcmp:
  ;@ frame back - caller by 40
  leai r15, r15, -40
  st r15, r7, 0, any, keep
  st r15, r8, 8, any, keep
  st r15, r9, 16, any, keep
  st r15, r10, 24, any, keep
  st r15, r11, 32, any, keep
  mov r10, r0
  mov r11, r1
  ldi r5, 3
  ldi r4, 0
  ldi r6, 7
  ldi r7, 255
  ldi r8, -1
  ldi r9, 1
  mov r3, r4
L126:
  lea r1, r10, r3
  and r0, r1, r6
  sub r0, r4, r0
  lea r0, r1, r0
  shl r1, r1, r5
  ld r0, r0, 0, any, keep
  shr r0, r0, r1
  and r2, r0, r7
  lea r1, r11, r3
  and r0, r1, r6
  sub r0, r4, r0
  lea r0, r1, r0
  shl r1, r1, r5
  ld r0, r0, 0, any, keep
  shr r0, r0, r1
  and r1, r0, r7
  eq r0, r2, r1
  bnz r0, L128
L127:
  ltu r0, r2, r1
  mov r1, r8
  bnz r0, L129
  mov r1, r9
L132:
  br L129
L128:
  addi r3, r3, 1
  eq r0, r3, r8
  bnz r2, L133
  mov r0, r9
L133:
  bz r0, L126
L130:
  mov r1, r4
L129:
  mov r0, r1
  ld r7, r15, 0, any, keep
  ld r8, r15, 8, any, keep
  ld r9, r15, 16, any, keep
  ld r10, r15, 24, any, keep
  ld r11, r15, 32, any, keep
  leai r15, r15, 40
  jmp r14
strtok:
  ;@ frame back - caller by 48
  leai r15, r15, -48
  st r15, r7, 8, any, keep
  st r15, r8, 16, any, keep
  st r15, r9, 24, any, keep
  st r15, r10, 32, any, keep
  st r15, r11, 40, any, keep
  st r15, r0, 0, any, keep
  mov r6, r1
  ldi r7, 0
  ldi r9, 3
  ldi r8, 7
  ldi r5, 56
  ld r12, r15, 0, any, keep
  bz r12, L136
L135:
  lip r12, P_13
  ld r12, r12, 0, any, keep
  st r12, r7, 0, any, keep
  br L137
L136:
  lip r12, P_13
  ld r12, r12, 0, any, keep
  ld r12, r12, 0, any, keep
  st r15, r12, 0, any, keep
  lip r12, P_13
  ld r12, r12, 0, any, keep
  st r12, r7, 0, any, keep
  ld r12, r15, 0, any, keep
  bnz r12, L137
L151:
  mov r10, r7
  st r15, r7, 0, any, keep
  br L150
L137:
  ld r12, r15, 0, any, keep
  and r0, r12, r8
  sub r0, r7, r0
  ld r12, r15, 0, any, keep
  lea r0, r12, r0
  ld r12, r15, 0, any, keep
  shl r1, r12, r9
  ld r0, r0, 0, any, keep
  shr r0, r0, r1
  shl r0, r0, r5
  sar r4, r0, r5
  ldi r13, 255
  and r0, r4, r13
  bnz r0, L138
L153:
  mov r10, r7
  st r15, r7, 0, any, keep
  br L150
L138:
  and r0, r6, r8
  sub r0, r7, r0
  lea r0, r6, r0
  shl r1, r6, r9
  ld r0, r0, 0, any, keep
  shr r0, r0, r1
  shl r0, r0, r5
  sar r11, r0, r5
  mov r10, r7
L139:
  eq r0, r4, r11
  bnz r0, L142
L154:
  mov r1, r11
  mov r2, r7
  br L141
L140:
  lea r1, r6, r2
  and r0, r1, r8
  sub r0, r7, r0
  lea r0, r1, r0
  shl r1, r1, r9
  ld r0, r0, 0, any, keep
  shr r0, r0, r1
  shl r0, r0, r5
  sar r1, r0, r5
  eq r0, r4, r1
  bnz r0, L142
L141:
  addi r2, r2, 1
  bz r1, L143
  br L140
L142:
  addi r10, r10, 1
  ld r12, r15, 0, any, keep
  lea r1, r12, r10
  and r0, r1, r8
  sub r0, r7, r0
  lea r0, r1, r0
  shl r1, r1, r9
  ld r0, r0, 0, any, keep
  shr r0, r0, r1
  shl r0, r0, r5
  sar r4, r0, r5
  ldi r13, 255
  and r0, r4, r13
  bnz r0, L139
L165:
  mov r10, r7
  st r15, r7, 0, any, keep
  br L150
L143:
  bz r4, L155
L156:
  mov r3, r7
  br L144
L155:
  mov r10, r7
  st r15, r7, 0, any, keep
  br L150
L144:
  eq r0, r4, r11
  bnz r0, L148
L158:
  mov r1, r11
  mov r2, r7
  br L146
L145:
  lea r1, r6, r2
  and r0, r1, r8
  sub r0, r7, r0
  lea r0, r1, r0
  shl r1, r1, r9
  ld r0, r0, 0, any, keep
  shr r0, r0, r1
  shl r0, r0, r5
  sar r1, r0, r5
  eq r0, r4, r1
  bnz r0, L148
L146:
  addi r2, r2, 1
  bnz r1, L145
L147:
  addi r3, r3, 1
  add r0, r10, r3
  ld r12, r15, 0, any, keep
  lea r1, r12, r0
  and r0, r1, r8
  sub r0, r7, r0
  lea r0, r1, r0
  shl r1, r1, r9
  ld r0, r0, 0, any, keep
  shr r0, r0, r1
  shl r0, r0, r5
  sar r4, r0, r5
  ldi r13, 255
  and r0, r4, r13
  bnz r0, L144
L148:
  add r4, r10, r3
  ld r12, r15, 0, any, keep
  lea r1, r12, r4
  and r0, r1, r8
  sub r0, r7, r0
  lea r0, r1, r0
  shl r1, r1, r9
  ld r0, r0, 0, any, keep
  shr r0, r0, r1
  ldi r13, 255
  and r0, r0, r13
  bz r0, L150
L149:
  ld r12, r15, 0, any, keep
  lea r1, r12, r4
  and r0, r1, r8
  sub r0, r7, r0
  lea r3, r1, r0
  shl r2, r1, r9
  ld r1, r3, 0, any, keep
  shr r0, r1, r2
  xor r0, r0, r7
  ldi r13, 255
  and r0, r0, r13
  shl r0, r0, r2
  xor r0, r1, r0
  st r3, r0, 0, any, keep
  addi r3, r4, 1
  ld r12, r15, 0, any, keep
  add r2, r12, r3
  isptr r0, r12
  bz r0, L167
  ldi r0, 54
  shr r0, r12, r0
  xor r1, r2, r12
  shr r1, r1, r0
  bnz r1, L167
  lea r2, r12, r3
L167:
  lip r12, P_13
  ld r12, r12, 0, any, keep
  st r12, r2, 0, any, keep
L150:
  ld r12, r15, 0, any, keep
  add r2, r12, r10
  isptr r0, r12
  bz r0, L168
  ldi r0, 54
  shr r0, r12, r0
  xor r1, r2, r12
  shr r1, r1, r0
  bnz r1, L168
  lea r2, r12, r10
L168:
  mov r0, r2
  ld r7, r15, 8, any, keep
  ld r8, r15, 16, any, keep
  ld r9, r15, 24, any, keep
  ld r10, r15, 32, any, keep
  ld r11, r15, 40, any, keep
  leai r15, r15, 48
  jmp r14
memcpy:
  ;@ frame back - caller by 64
  leai r15, r15, -64
  st r15, r7, 24, any, keep
  st r15, r8, 32, any, keep
  st r15, r9, 40, any, keep
  st r15, r10, 48, any, keep
  st r15, r11, 56, any, keep
  st r15, r1, 0, any, keep
  st r15, r2, 8, any, keep
  mov r11, r0
  ldi r8, 7
  ldi r9, 0
  ldi r10, 3
  ldi r6, 1
  ldi r7, 2
  ld r12, r15, 0, any, keep
  xor r0, r12, r11
  and r0, r0, r8
  bz r0, L170
L195:
  mov r6, r9
  br L189
L170:
  ld r12, r15, 8, any, keep
  bnz r12, L171
L196:
  mov r4, r9
  br L187
L171:
  sub r0, r9, r11
  and r4, r0, r8
  bz r4, L187
L172:
  ld r12, r15, 0, any, keep
  and r0, r12, r8
  sub r0, r9, r0
  ld r12, r15, 0, any, keep
  lea r0, r12, r0
  ld r12, r15, 0, any, keep
  shl r1, r12, r10
  ld r0, r0, 0, any, keep
  shr r5, r0, r1
  and r0, r11, r8
  sub r0, r9, r0
  lea r3, r11, r0
  shl r2, r11, r10
  ld r1, r3, 0, any, keep
  shr r0, r1, r2
  xor r0, r0, r5
  ldi r13, 255
  and r0, r0, r13
  shl r0, r0, r2
  xor r0, r1, r0
  st r3, r0, 0, any, keep
  ld r12, r15, 8, any, keep
  eq r0, r12, r6
  bz r0, L173
L198:
  ld r4, r15, 8, any, keep
  br L187
L173:
  eq r0, r4, r6
  bnz r0, L187
L174:
  ld r12, r15, 0, any, keep
  leai r1, r12, 1
  and r0, r1, r8
  sub r0, r9, r0
  lea r0, r1, r0
  shl r1, r1, r10
  ld r0, r0, 0, any, keep
  shr r5, r0, r1
  leai r1, r11, 1
  and r0, r1, r8
  sub r0, r9, r0
  lea r3, r1, r0
  shl r2, r1, r10
  ld r1, r3, 0, any, keep
  shr r0, r1, r2
  xor r0, r0, r5
  ldi r13, 255
  and r0, r0, r13
  shl r0, r0, r2
  xor r0, r1, r0
  st r3, r0, 0, any, keep
  ld r12, r15, 8, any, keep
  eq r0, r12, r7
  bz r0, L175
L200:
  ld r4, r15, 8, any, keep
  br L187
L175:
  eq r0, r4, r7
  bnz r0, L187
L176:
  ld r12, r15, 0, any, keep
  leai r1, r12, 2
  and r0, r1, r8
  sub r0, r9, r0
  lea r0, r1, r0
  shl r1, r1, r10
  ld r0, r0, 0, any, keep
  shr r5, r0, r1
  leai r1, r11, 2
  and r0, r1, r8
  sub r0, r9, r0
  lea r3, r1, r0
  shl r2, r1, r10
  ld r1, r3, 0, any, keep
  shr r0, r1, r2
  xor r0, r0, r5
  ldi r13, 255
  and r0, r0, r13
  shl r0, r0, r2
  xor r0, r1, r0
  st r3, r0, 0, any, keep
  ld r12, r15, 8, any, keep
  eq r0, r12, r10
  bz r0, L177
L202:
  ld r4, r15, 8, any, keep
  br L187
L177:
  eq r0, r4, r10
  bnz r0, L187
L178:
  ld r12, r15, 0, any, keep
  leai r1, r12, 3
  and r0, r1, r8
  sub r0, r9, r0
  lea r0, r1, r0
  shl r1, r1, r10
  ld r0, r0, 0, any, keep
  shr r5, r0, r1
  leai r1, r11, 3
  and r0, r1, r8
  sub r0, r9, r0
  lea r3, r1, r0
  shl r2, r1, r10
  ld r1, r3, 0, any, keep
  shr r0, r1, r2
  xor r0, r0, r5
  ldi r13, 255
  and r0, r0, r13
  shl r0, r0, r2
  xor r0, r1, r0
  st r3, r0, 0, any, keep
  ld r12, r15, 8, any, keep
  ldi r13, 4
  eq r0, r12, r13
  bz r0, L179
L204:
  ld r4, r15, 8, any, keep
  br L187
L179:
  ldi r13, 4
  eq r0, r4, r13
  bnz r0, L187
L180:
  ld r12, r15, 0, any, keep
  leai r1, r12, 4
  and r0, r1, r8
  sub r0, r9, r0
  lea r0, r1, r0
  shl r1, r1, r10
  ld r0, r0, 0, any, keep
  shr r5, r0, r1
  leai r1, r11, 4
  and r0, r1, r8
  sub r0, r9, r0
  lea r3, r1, r0
  shl r2, r1, r10
  ld r1, r3, 0, any, keep
  shr r0, r1, r2
  xor r0, r0, r5
  ldi r13, 255
  and r0, r0, r13
  shl r0, r0, r2
  xor r0, r1, r0
  st r3, r0, 0, any, keep
  ld r12, r15, 8, any, keep
  ldi r13, 5
  eq r0, r12, r13
  bz r0, L181
L206:
  ld r4, r15, 8, any, keep
  br L187
L181:
  ldi r13, 5
  eq r0, r4, r13
  bnz r0, L187
L182:
  ld r12, r15, 0, any, keep
  leai r1, r12, 5
  and r0, r1, r8
  sub r0, r9, r0
  lea r0, r1, r0
  shl r1, r1, r10
  ld r0, r0, 0, any, keep
  shr r5, r0, r1
  leai r1, r11, 5
  and r0, r1, r8
  sub r0, r9, r0
  lea r3, r1, r0
  shl r2, r1, r10
  ld r1, r3, 0, any, keep
  shr r0, r1, r2
  xor r0, r0, r5
  ldi r13, 255
  and r0, r0, r13
  shl r0, r0, r2
  xor r0, r1, r0
  st r3, r0, 0, any, keep
  ld r12, r15, 8, any, keep
  ldi r13, 6
  eq r0, r12, r13
  bz r0, L183
L208:
  ld r4, r15, 8, any, keep
  br L187
L183:
  ldi r13, 6
  eq r0, r4, r13
  bnz r0, L187
L184:
  ld r12, r15, 0, any, keep
  leai r1, r12, 6
  and r0, r1, r8
  sub r0, r9, r0
  lea r0, r1, r0
  shl r1, r1, r10
  ld r0, r0, 0, any, keep
  shr r5, r0, r1
  leai r1, r11, 6
  and r0, r1, r8
  sub r0, r9, r0
  lea r3, r1, r0
  shl r2, r1, r10
  ld r1, r3, 0, any, keep
  shr r0, r1, r2
  xor r0, r0, r5
  ldi r13, 255
  and r0, r0, r13
  shl r0, r0, r2
  xor r0, r1, r0
  st r3, r0, 0, any, keep
  ld r12, r15, 8, any, keep
  eq r0, r12, r8
  bz r0, L185
L210:
  ld r4, r15, 8, any, keep
  br L187
L185:
  eq r0, r4, r8
  bnz r0, L187
L186:
  ld r12, r15, 0, any, keep
  leai r1, r12, 7
  and r0, r1, r8
  sub r0, r9, r0
  lea r0, r1, r0
  shl r1, r1, r10
  ld r0, r0, 0, any, keep
  shr r4, r0, r1
  leai r1, r11, 7
  and r0, r1, r8
  sub r0, r9, r0
  lea r3, r1, r0
  shl r2, r1, r10
  ld r1, r3, 0, any, keep
  shr r0, r1, r2
  xor r0, r0, r4
  ldi r13, 255
  and r0, r0, r13
  shl r0, r0, r2
  xor r0, r1, r0
  st r3, r0, 0, any, keep
  ld r4, r15, 8, any, keep
L187:
  addi r6, r4, 8
  ld r12, r15, 8, any, keep
  ltu r0, r12, r6
  bz r0, L188
L212:
  mov r6, r4
  br L189
L188:
  ld r12, r15, 0, any, keep
  lea r0, r12, r4
  ld r1, r0, 0, any, keep
  lea r0, r11, r4
  st r0, r1, 0, any, keep
  addi r1, r6, 8
  ld r12, r15, 8, any, keep
  ltu r0, r12, r1
  bnz r0, L189
L215:
  mov r4, r6
  mov r6, r1
  br L188
L189:
  ld r13, r15, 8, any, keep
  ltu r0, r6, r13
  bz r0, L194
L190:
  ld r12, r15, 8, any, keep
  sub r1, r12, r6
  ldi r13, -1
  xor r0, r6, r13
  ld r13, r15, 8, any, keep
  add r12, r0, r13
  st r15, r12, 16, any, keep
  and r7, r1, r10
  bz r7, L192
L217:
  mov r5, r9
L191:
  ld r12, r15, 0, any, keep
  lea r1, r12, r6
  and r0, r1, r8
  sub r0, r9, r0
  lea r0, r1, r0
  shl r1, r1, r10
  ld r0, r0, 0, any, keep
  shr r4, r0, r1
  lea r1, r11, r6
  and r0, r1, r8
  sub r0, r9, r0
  lea r3, r1, r0
  shl r2, r1, r10
  ld r1, r3, 0, any, keep
  shr r0, r1, r2
  xor r0, r0, r4
  ldi r13, 255
  and r0, r0, r13
  shl r0, r0, r2
  xor r0, r1, r0
  st r3, r0, 0, any, keep
  addi r6, r6, 1
  addi r5, r5, 1
  eq r0, r5, r7
  bz r0, L191
L192:
  ld r12, r15, 16, any, keep
  ltu r0, r12, r10
  bnz r0, L194
L193:
  ld r12, r15, 0, any, keep
  lea r1, r12, r6
  and r0, r1, r8
  sub r0, r9, r0
  lea r0, r1, r0
  shl r1, r1, r10
  ld r0, r0, 0, any, keep
  shr r4, r0, r1
  lea r1, r11, r6
  and r0, r1, r8
  sub r0, r9, r0
  lea r3, r1, r0
  shl r2, r1, r10
  ld r1, r3, 0, any, keep
  shr r0, r1, r2
  xor r0, r0, r4
  ldi r13, 255
  and r0, r0, r13
  shl r0, r0, r2
  xor r0, r1, r0
  st r3, r0, 0, any, keep
  addi r2, r6, 1
  ld r12, r15, 0, any, keep
  lea r1, r12, r2
  and r0, r1, r8
  sub r0, r9, r0
  lea r0, r1, r0
  shl r1, r1, r10
  ld r0, r0, 0, any, keep
  shr r4, r0, r1
  lea r1, r11, r2
  and r0, r1, r8
  sub r0, r9, r0
  lea r3, r1, r0
  shl r2, r1, r10
  ld r1, r3, 0, any, keep
  shr r0, r1, r2
  xor r0, r0, r4
  ldi r13, 255
  and r0, r0, r13
  shl r0, r0, r2
  xor r0, r1, r0
  st r3, r0, 0, any, keep
  addi r2, r6, 2
  ld r12, r15, 0, any, keep
  lea r1, r12, r2
  and r0, r1, r8
  sub r0, r9, r0
  lea r0, r1, r0
  shl r1, r1, r10
  ld r0, r0, 0, any, keep
  shr r4, r0, r1
  lea r1, r11, r2
  and r0, r1, r8
  sub r0, r9, r0
  lea r3, r1, r0
  shl r2, r1, r10
  ld r1, r3, 0, any, keep
  shr r0, r1, r2
  xor r0, r0, r4
  ldi r13, 255
  and r0, r0, r13
  shl r0, r0, r2
  xor r0, r1, r0
  st r3, r0, 0, any, keep
  addi r2, r6, 3
  ld r12, r15, 0, any, keep
  lea r1, r12, r2
  and r0, r1, r8
  sub r0, r9, r0
  lea r0, r1, r0
  shl r1, r1, r10
  ld r0, r0, 0, any, keep
  shr r4, r0, r1
  lea r1, r11, r2
  and r0, r1, r8
  sub r0, r9, r0
  lea r3, r1, r0
  shl r2, r1, r10
  ld r1, r3, 0, any, keep
  shr r0, r1, r2
  xor r0, r0, r4
  ldi r13, 255
  and r0, r0, r13
  shl r0, r0, r2
  xor r0, r1, r0
  st r3, r0, 0, any, keep
  addi r6, r6, 4
  ld r13, r15, 8, any, keep
  eq r0, r6, r13
  bz r0, L193
L194:
  mov r0, r11
  ld r7, r15, 24, any, keep
  ld r8, r15, 32, any, keep
  ld r9, r15, 40, any, keep
  ld r10, r15, 48, any, keep
  ld r11, r15, 56, any, keep
  leai r15, r15, 64
  jmp r14
P_0: .ptr ro _str+6
P_1: .ptr rw chains+0
P_2: .ptr ro __const_main_text+48
P_3: .ptr ro _str_1+6
P_4: .ptr ro _str_2+0
P_5: .ptr ro _str_3+3
P_6: .ptr ro _str_4+4
P_7: .ptr ro _str_5+4
P_8: .ptr rw stdout+0
P_9: .ptr rw heap+0
P_10: .ptr rw next+0
P_11: .ptr rw used+0
P_12: .ptr rw __mm_refused+0
P_13: .ptr rw strtok_rest+0
.segment __const_main_text 7
  ;@ global text 79 at 48 constant
  .fill 6
  .int 0x65746e696f702061
  .int 0x732061206f742072
  .int 0x6920746e656d6765
  .int 0x64726f7720612073
  .int 0x2061206874697720
  .int 0x20646e6120676174
  .int 0x772064726f772061
  .int 0x6174206120687469
  .int 0x7020612073692067
  .int 0x7265746e696f
.segment _str 3
  ;@ unnamed at 6 constant
  .int 0x20000000000000
.segment _str_1 3
  ;@ unnamed at 6 constant
  .int 0x61000000000000
.segment _str_2 3
  ;@ unnamed at 0 constant
  .int 0x7265746e696f70
.segment _str_3 3
  ;@ unnamed at 3 constant
  .int 0x64726f77000000
.segment _str_4 3
  ;@ unnamed at 4 constant
  .int 0x67617400000000
.segment _str_5 3
  ;@ unnamed at 4 constant
  .int 0x79656b00000000
.segment stdout 3
  ;@ global stdout 8 at 0
  .ptr rw files+8
.segment chains 7
  ;@ global chains 128 at 0 type 14
.segment heap 16
  ;@ global __mm_heap 65536 at 0
.segment next 3
  ;@ global next 8 at 0
.segment used 3
  ;@ global used 8 at 0
.segment __mm_refused 3
  ;@ global __mm_refused 8 at 0
.segment strtok_rest 3
  ;@ global rest 8 at 0
.segment files 4
  ;@ global files 12 at 4
  .fill 1
  .int 0x200000001
.segment stack 16
.thread 0 0 none xu start
.reg 15 ptr rw stack+65472
;@ type 1 pointer 2
;@ type 2 base i1 char
;@ type 3 base i4 int
;@ type 4 pointer 5
;@ type 5 struct 24 entry next:0:4 word:64:1 count:128:3
;@ type 6 pointer 2
;@ type 7 base i8 long
;@ type 8 base u8 unsigned long
;@ type 9 array 20 2
;@ type 10 array 79 2
;@ type 11 array 5 6
;@ type 12 base u4 unsigned int
;@ type 13 pointer 4
;@ type 14 array 16 4
