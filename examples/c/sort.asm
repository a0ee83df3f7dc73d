.segment text 15
start:
  ldi r0, 1
  ldi r1, 0
  lip r14, 2
  br main
  halt
main:
  ;@ function main at examples/c/sort.c:54
  ;@ inlined 1 by_insertion at examples/c/sort.c:59
  ;@ inlined 2 next_number at examples/c/sort.c:58
  ;@ inlined 3 say_number at examples/c/sort.c:63
  ;@ inlined 4 say at examples/c/sort.c:66
  ;@ inlined 5 say at examples/c/sort.c:70
  ;@ frame back 72 caller at 80
  ;@ local digits 20 at 104 log 5 type 6 in 3
  ;@ local first 96 at 288 log 7 type 7
  ;@ local second 96 at 416 log 7 type 7
  ;@ local third 96 at 544 log 7 type 7
  ;@ local room 96 at 672 log 7 type 7
  ;@ local names 48 at 144 log 6 type 8
  ldi r13, 127
  and r13, r15, r13
  ldi r12, -768
  sub r13, r12, r13
  lea r12, r15, r13
  st r12, r15, 80, any, keep
  mov r15, r12
  st r15, r7, 32, any, keep
  st r15, r8, 40, any, keep
  st r15, r9, 48, any, keep
  st r15, r10, 56, any, keep
  st r15, r11, 64, any, keep
  st r15, r14, 72, any, keep
  leai r11, r15, 104
  ldi r14, 5
  subseg r11, r11, r14
  leai r10, r15, 288
  ldi r14, 7
  subseg r10, r10, r14
  leai r12, r15, 416
  ldi r14, 7
  subseg r12, r12, r14
  st r15, r12, 8, any, keep
  leai r12, r15, 544
  ldi r14, 7
  subseg r12, r12, r14
  st r15, r12, 16, any, keep
  leai r12, r15, 672
  ldi r14, 7
  subseg r12, r12, r14
  st r15, r12, 0, any, keep
  leai r12, r15, 144
  ldi r14, 6
  subseg r12, r12, r14
  st r15, r12, 24, any, keep
  ldi r9, 32
  ldi r6, 1103515245
  ldi r7, 0
  ldhi r7, 4294967295
  ldi r8, 16
  ;@ line examples/c/sort.c:56
  ;@ var i 1 0
  lip r12, P_0
  ld r12, r12, 0, any, keep
  ld r0, r12, -4, any, keep
  shr r5, r0, r9
  ldi r4, 0
  ;@ line examples/c/sort.c:57
  br L8
L2:
  ;@ var i 1 -
  lip r12, P_0
  ld r12, r12, 0, any, keep
  ld r0, r12, -4, any, keep
  shl r0, r0, r9
  shr r1, r0, r9
  shl r0, r5, r9
  or r0, r1, r0
  lip r12, P_0
  ld r12, r12, 0, any, keep
  st r12, r0, -4, any, keep
  ldi r8, 1
L3:
  ;@ line examples/c/sort.c:19 in 1
  ;@ var i 1 r8 in 1
  ldi r13, 2
  shl r0, r8, r13
  lea r0, r10, r0
  ldi r14, 4
  and r6, r0, r14
  bnz r6, L32
  ld r6, r0, 0, any, keep
  shl r6, r6, r9
  br L33
L32:
  ld r6, r0, -4, any, keep
L33:
  sar r6, r6, r9
  ;@ var x 1 r6 in 1
  ;@ var j 1 r8 in 1
  mov r4, r8
L4:
  ;@ line examples/c/sort.c:20 in 1
  ;@ var j 1 r4 in 1
  addi r5, r4, -1
  and r0, r5, r7
  ldi r13, 2
  shl r0, r0, r13
  lea r0, r10, r0
  ldi r14, 4
  and r3, r0, r14
  bnz r3, L34
  ld r3, r0, 0, any, keep
  shl r3, r3, r9
  br L35
L34:
  ld r3, r0, -4, any, keep
L35:
  sar r3, r3, r9
  lts r0, r6, r3
  bz r0, L6
L5:
  ;@ line examples/c/sort.c:21 in 1
  ldi r13, 2
  shl r0, r4, r13
  lea r2, r10, r0
  ldi r14, 4
  and r0, r2, r14
  bnz r0, L36
  ld r0, r2, 0, any, keep
  xor r1, r0, r3
  shl r1, r1, r9
  shr r1, r1, r9
  xor r0, r0, r1
  st r2, r0, 0, any, keep
  br L37
L36:
  ld r0, r2, -4, any, keep
  shl r0, r0, r9
  shr r0, r0, r9
  shl r1, r3, r9
  or r0, r0, r1
  st r2, r0, -4, any, keep
L37:
  ;@ line examples/c/sort.c:20 in 1
  ;@ var j 1 r5 in 1
  ldi r12, 1
  lts r0, r12, r4
  bnz r0, L23
L24:
  ;@ var j 1 - in 1
  ldi r4, 0
  br L6
L23:
  ;@ var j 1 r5 in 1
  mov r4, r5
  ;@ var j 1 - in 1
  br L4
L6:
  ;@ line examples/c/sort.c:22 in 1
  shl r0, r4, r9
  sar r0, r0, r9
  ldi r13, 2
  shl r0, r0, r13
  lea r2, r10, r0
  ldi r14, 4
  and r0, r2, r14
  bnz r0, L38
  ld r0, r2, 0, any, keep
  xor r1, r0, r6
  shl r1, r1, r9
  shr r1, r1, r9
  xor r0, r0, r1
  st r2, r0, 0, any, keep
  br L39
L38:
  ld r0, r2, -4, any, keep
  shl r0, r0, r9
  shr r0, r0, r9
  shl r1, r6, r9
  or r0, r0, r1
  st r2, r0, -4, any, keep
L39:
  ;@ line examples/c/sort.c:18 in 1
  ;@ var x 1 - in 1
  addi r8, r8, 1
  ldi r13, 24
  eq r0, r8, r13
  bz r0, L3
L7:
  ;@ line examples/c/sort.c:60
  ;@ var i 1 - in 1
  ld r0, r15, 8, any, keep
  ld r1, r15, 0, any, keep
  ldi r2, 0
  ldi r3, 24
  lip r14, 2
  br by_merging
  ;@ line examples/c/sort.c:61
  ld r0, r15, 16, any, keep
  ldi r1, 24
  ldi r2, 4
  lip r3, compare
  lip r14, 2
  br qsort
  ;@ var i 1 0
  ldi r12, 0
  st r15, r12, 0, any, keep
  ;@ line examples/c/sort.c:62
  br L10
L8:
  ;@ line examples/c/sort.c:12 in 2
  ;@ var i 1 r4
  mul r0, r5, r6
  addi r5, r0, 12345
  and r0, r5, r7
  ;@ line examples/c/sort.c:13 in 2
  shr r0, r0, r8
  ldi r13, 1000
  remu r3, r0, r13
  ;@ line examples/c/sort.c:58
  ldi r13, 2
  shl r0, r4, r13
  ld r12, r15, 16, any, keep
  lea r2, r12, r0
  ldi r14, 4
  and r0, r2, r14
  bnz r0, L40
  ld r0, r2, 0, any, keep
  xor r1, r0, r3
  shl r1, r1, r9
  shr r1, r1, r9
  xor r0, r0, r1
  st r2, r0, 0, any, keep
  br L41
L40:
  ld r0, r2, -4, any, keep
  shl r0, r0, r9
  shr r0, r0, r9
  shl r1, r3, r9
  or r0, r0, r1
  st r2, r0, -4, any, keep
L41:
  ldi r13, 2
  shl r0, r4, r13
  ld r12, r15, 8, any, keep
  lea r2, r12, r0
  ldi r14, 4
  and r0, r2, r14
  bnz r0, L42
  ld r0, r2, 0, any, keep
  xor r1, r0, r3
  shl r1, r1, r9
  shr r1, r1, r9
  xor r0, r0, r1
  st r2, r0, 0, any, keep
  br L43
L42:
  ld r0, r2, -4, any, keep
  shl r0, r0, r9
  shr r0, r0, r9
  shl r1, r3, r9
  or r0, r0, r1
  st r2, r0, -4, any, keep
L43:
  ldi r13, 2
  shl r0, r4, r13
  lea r2, r10, r0
  ldi r14, 4
  and r0, r2, r14
  bnz r0, L44
  ld r0, r2, 0, any, keep
  xor r1, r0, r3
  shl r1, r1, r9
  shr r1, r1, r9
  xor r0, r0, r1
  st r2, r0, 0, any, keep
  br L45
L44:
  ld r0, r2, -4, any, keep
  shl r0, r0, r9
  shr r0, r0, r9
  shl r1, r3, r9
  or r0, r0, r1
  st r2, r0, -4, any, keep
L45:
  ;@ line examples/c/sort.c:57
  addi r4, r4, 1
  ldi r13, 24
  eq r0, r4, r13
  bnz r0, L2
  br L8
L9:
  ;@ line examples/c/sort.c:66
  ;@ var i 1 -
  mov r0, r10
  ld r1, r15, 8, any, keep
  ldi r2, 96
  lip r14, 2
  br memcmp
  bz r0, L17
L30:
  ldi r3, 0
  lip r2, P_1
  ld r2, r2, 0, any, keep
  br L18
L10:
  ;@ line examples/c/sort.c:63
  ;@ var i 1 s0
  ld r12, r15, 0, any, keep
  ldi r13, 2
  shl r0, r12, r13
  lea r1, r10, r0
  ldi r14, 4
  and r0, r1, r14
  bnz r0, L46
  ld r0, r1, 0, any, keep
  shl r0, r0, r9
  br L47
L46:
  ld r0, r1, -4, any, keep
L47:
  sar r0, r0, r9
  ;@ line examples/c/say.h:15 in 3
  ;@ var number 2 r0 in 3
  ;@ var length 1 0 in 3
  ldi r12, 0
  sub r2, r12, r0
  ldi r13, 0
  lts r1, r0, r13
  mov r7, r2
  bnz r1, L48
  mov r7, r0
L48:
  ;@ line examples/c/say.h:16 in 3
  ;@ var rest 3 r7 in 3
  ldi r13, 0
  lts r0, r0, r13
  ;@ var number 2 - in 3
  bz r0, L12
L11:
  ;@ line examples/c/say.h:17 in 3
  ldi r0, 45
  lip r14, 2
  br putchar
L12:
  ldi r1, 0
L13:
  ;@ line examples/c/say.h:20 in 3
  ;@ var length 1 r1 in 3
  ldi r13, 10
  divu r5, r7, r13
  ldi r13, 10
  mul r0, r5, r13
  sub r0, r7, r0
  ;@ line examples/c/say.h:19 in 3
  ldi r13, 48
  or r4, r0, r13
  addi r8, r1, 1
  shl r0, r8, r9
  sar r6, r0, r9
  ;@ var length 1 r8 in 3
  addi r1, r1, 8
  ldi r13, -8
  and r0, r1, r13
  leab r3, r11, r0
  ldi r13, 3
  shl r2, r1, r13
  ld r1, r3, 0, any, keep
  shr r0, r1, r2
  xor r0, r0, r4
  ldi r13, 255
  and r0, r0, r13
  shl r0, r0, r2
  xor r0, r1, r0
  st r3, r0, 0, any, keep
  ;@ var rest 3 r5 in 3
  ldi r13, 10
  ltu r0, r7, r13
  bnz r0, L14
L26:
  ;@ var length 1 r6 in 3
  mov r1, r6
  ;@ var length 1 - in 3
  mov r7, r5
  ;@ var rest 3 - in 3
  br L13
L14:
  ;@ line examples/c/say.h:21 in 3
  ;@ var length 1 r8 in 3
  bz r6, L16
L15:
  ;@ line examples/c/say.h:22 in 3
  addi r8, r8, -1
  ;@ var length 1 - in 3
  shl r0, r8, r9
  sar r7, r0, r9
  ;@ var length 1 r8 in 3
  addi r1, r7, 8
  ldi r13, -8
  and r0, r1, r13
  leab r0, r11, r0
  ldi r13, 3
  shl r1, r1, r13
  ld r0, r0, 0, any, keep
  shr r0, r0, r1
  ldi r13, 56
  shl r0, r0, r13
  ldi r13, 56
  sar r0, r0, r13
  lip r14, 2
  br putchar
  ;@ line examples/c/say.h:21 in 3
  bnz r7, L15
L16:
  ;@ line examples/c/sort.c:64
  ;@ var length 1 - in 3
  ld r12, r15, 0, any, keep
  addi r7, r12, 1
  ld r12, r15, 0, any, keep
  ldi r13, 23
  ltu r1, r12, r13
  ;@ var i 1 -
  mov r0, r9
  bnz r1, L49
  ldi r0, 10
L49:
  lip r14, 2
  br putchar
  ;@ line examples/c/sort.c:62
  ;@ var i 1 r7
  ldi r13, 24
  eq r0, r7, r13
  bnz r0, L9
L29:
  st r15, r7, 0, any, keep
  ;@ var i 1 -
  br L10
L17:
  ;@ line examples/c/sort.c:66
  mov r0, r10
  ld r1, r15, 16, any, keep
  ldi r2, 96
  lip r14, 2
  br memcmp
  lip r2, P_1
  ld r2, r2, 0, any, keep
  bnz r0, L50
  lip r2, P_2
  ld r2, r2, 0, any, keep
L50:
  ldi r3, 0
L18:
  ;@ line examples/c/say.h:8 in 4
  ;@ var text 4 r2+r3 in 4
  lip r12, P_3
  ld r12, r12, 0, any, keep
  ld r5, r12, 0, any, keep
  add r4, r2, r3
  isptr r0, r2
  bz r0, L51
  ldi r0, 54
  shr r0, r2, r0
  xor r1, r4, r2
  shr r1, r1, r0
  bnz r1, L51
  lea r4, r2, r3
L51:
  ;@ var text 4 - in 4
  mov r0, r4
  mov r3, r5
  ldi r1, 10
  ldi r2, 1
  lip r14, 2
  br fwrite
  ;@ line examples/c/sort.c:67
  ldi r12, 0
  st r15, r12, 144, any, keep
  ldi r12, 0
  st r15, r12, 152, any, keep
  ldi r12, 0
  st r15, r12, 160, any, keep
  ldi r12, 0
  st r15, r12, 168, any, keep
  ldi r12, 0
  st r15, r12, 176, any, keep
  ldi r12, 0
  st r15, r12, 184, any, keep
  lip r12, P_4
  ld r12, r12, 0, any, keep
  st r15, r12, 144, any, keep
  lip r12, P_5
  ld r12, r12, 0, any, keep
  st r15, r12, 152, any, keep
  lip r12, P_6
  ld r12, r12, 0, any, keep
  st r15, r12, 160, any, keep
  lip r12, P_7
  ld r12, r12, 0, any, keep
  st r15, r12, 168, any, keep
  lip r12, P_8
  ld r12, r12, 0, any, keep
  st r15, r12, 176, any, keep
  lip r12, P_9
  ld r12, r12, 0, any, keep
  st r15, r12, 184, any, keep
  ;@ line examples/c/sort.c:68
  ld r0, r15, 24, any, keep
  ldi r1, 6
  ldi r2, 8
  lip r3, compare_names
  lip r14, 2
  br qsort
  ;@ var i 1 0
  ldi r7, 0
  ;@ line examples/c/sort.c:69
  br L20
L19:
  ;@ line examples/c/sort.c:73
  ;@ var i 1 -
  ldi r0, 0
  ld r7, r15, 32, any, keep
  ld r8, r15, 40, any, keep
  ld r9, r15, 48, any, keep
  ld r10, r15, 56, any, keep
  ld r11, r15, 64, any, keep
  ld r14, r15, 72, any, keep
  ld r15, r15, 80, any, keep
  jmp r14
L20:
  ;@ line examples/c/sort.c:70
  ;@ var i 1 r7
  ldi r13, 3
  shl r0, r7, r13
  ld r12, r15, 24, any, keep
  lea r0, r12, r0
  ld r0, r0, 0, any, keep
  ;@ line examples/c/say.h:8 in 5
  ;@ var text 4 r0 in 5
  lip r12, P_3
  ld r12, r12, 0, any, keep
  ld r1, r12, 0, any, keep
  lip r14, 2
  br fputs
  ;@ line examples/c/sort.c:71
  ;@ var text 4 - in 5
  ldi r13, 5
  eq r1, r7, r13
  ldi r0, 10
  bnz r1, L52
  mov r0, r9
L52:
  lip r14, 2
  br putchar
  ;@ line examples/c/sort.c:69
  addi r7, r7, 1
  ldi r13, 6
  eq r0, r7, r13
  bnz r0, L19
  br L20
fputs:
  ;@ frame back - caller by 16
  leai r15, r15, -16
  st r15, r7, 0, any, keep
  st r15, r8, 8, any, keep
  mov r5, r0
  ldi r6, 3
  ldi r4, 0
  ldi r7, 7
  ldi r3, 56
  ldi r8, 255
  and r0, r5, r7
  sub r0, r4, r0
  lea r0, r5, r0
  shl r1, r5, r6
  ld r0, r0, 0, any, keep
  shr r0, r0, r1
  shl r0, r0, r3
  sar r1, r0, r3
  and r0, r1, r8
  bz r0, L54
L56:
  mov r2, r4
  br L55
L54:
  mov r0, r4
  ld r7, r15, 0, any, keep
  ld r8, r15, 8, any, keep
  leai r15, r15, 16
  jmp r14
L55:
  out r1
  addi r2, r2, 1
  lea r1, r5, r2
  and r0, r1, r7
  sub r0, r4, r0
  lea r0, r1, r0
  shl r1, r1, r6
  ld r0, r0, 0, any, keep
  shr r0, r0, r1
  shl r0, r0, r3
  sar r1, r0, r3
  and r0, r1, r8
  bz r0, L54
  br L55
compare_names:
  ;@ function compare_names at examples/c/sort.c:49
  ;@ frame back 0 caller by 8
  leai r15, r15, -8
  st r15, r14, 0, any, keep
  ;@ line examples/c/sort.c:51
  ;@ var a 9 r0
  ;@ var b 9 r1
  ld r0, r0, 0, any, keep
  ;@ var a 9 -
  ld r1, r1, 0, any, keep
  ;@ var b 9 -
  lip r14, 2
  br strcmp
  ld r14, r15, 0, any, keep
  leai r15, r15, 8
  jmp r14
strcmp:
  ;@ frame back - caller by 40
  leai r15, r15, -40
  st r15, r7, 0, any, keep
  st r15, r8, 8, any, keep
  st r15, r9, 16, any, keep
  st r15, r10, 24, any, keep
  st r15, r11, 32, any, keep
  mov r10, r0
  mov r11, r1
  ldi r5, 3
  ldi r4, 0
  ldi r6, 7
  ldi r7, 255
  ldi r8, -1
  ldi r9, 1
  mov r3, r4
L60:
  lea r1, r10, r3
  and r0, r1, r6
  sub r0, r4, r0
  lea r0, r1, r0
  shl r1, r1, r5
  ld r0, r0, 0, any, keep
  shr r0, r0, r1
  and r2, r0, r7
  lea r1, r11, r3
  and r0, r1, r6
  sub r0, r4, r0
  lea r0, r1, r0
  shl r1, r1, r5
  ld r0, r0, 0, any, keep
  shr r0, r0, r1
  and r1, r0, r7
  eq r0, r2, r1
  bnz r0, L62
L61:
  ltu r0, r2, r1
  mov r1, r8
  bnz r0, L63
  mov r1, r9
L66:
  br L63
L62:
  addi r3, r3, 1
  eq r0, r3, r8
  bnz r2, L67
  mov r0, r9
L67:
  bz r0, L60
L64:
  mov r1, r4
L63:
  mov r0, r1
  ld r7, r15, 0, any, keep
  ld r8, r15, 8, any, keep
  ld r9, r15, 16, any, keep
  ld r10, r15, 24, any, keep
  ld r11, r15, 32, any, keep
  leai r15, r15, 40
  jmp r14
fwrite:
  ;@ frame back - caller by 24
  leai r15, r15, -24
  st r15, r7, 0, any, keep
  st r15, r8, 8, any, keep
  st r15, r9, 16, any, keep
  mov r5, r0
  mov r9, r2
  mov r0, r3
  ldi r7, 3
  ldi r6, 0
  ldi r8, 7
  ldi r3, 56
  mul r4, r9, r1
  bz r4, L69
L71:
  mov r2, r6
  br L70
L69:
  mov r0, r9
  ld r7, r15, 0, any, keep
  ld r8, r15, 8, any, keep
  ld r9, r15, 16, any, keep
  leai r15, r15, 24
  jmp r14
L70:
  lea r1, r5, r2
  and r0, r1, r8
  sub r0, r6, r0
  lea r0, r1, r0
  shl r1, r1, r7
  ld r0, r0, 0, any, keep
  shr r0, r0, r1
  shl r0, r0, r3
  sar r0, r0, r3
  out r0
  addi r2, r2, 1
  eq r0, r2, r4
  bnz r0, L69
  br L70
memcmp:
  ;@ frame back - caller by 32
  leai r15, r15, -32
  st r15, r7, 0, any, keep
  st r15, r8, 8, any, keep
  st r15, r9, 16, any, keep
  st r15, r10, 24, any, keep
  mov r9, r0
  mov r10, r1
  mov r8, r2
  ldi r5, 3
  ldi r4, 0
  ldi r6, 7
  ldi r7, 255
  bz r8, L78
L79:
  mov r2, r4
  br L75
L78:
  mov r0, r4
  br L77
L74:
  eq r0, r2, r8
  bz r0, L75
L80:
  mov r0, r4
  br L77
L75:
  lea r1, r9, r2
  and r0, r1, r6
  sub r0, r4, r0
  lea r0, r1, r0
  shl r1, r1, r5
  ld r0, r0, 0, any, keep
  shr r0, r0, r1
  and r3, r0, r7
  lea r1, r10, r2
  and r0, r1, r6
  sub r0, r4, r0
  lea r0, r1, r0
  shl r1, r1, r5
  ld r0, r0, 0, any, keep
  shr r0, r0, r1
  and r1, r0, r7
  addi r2, r2, 1
  eq r0, r3, r1
  bnz r0, L74
L76:
  ltu r1, r3, r1
  ldi r0, -1
  bnz r1, L77
  ldi r0, 1
L82:
L77:
  ld r7, r15, 0, any, keep
  ld r8, r15, 8, any, keep
  ld r9, r15, 16, any, keep
  ld r10, r15, 24, any, keep
  leai r15, r15, 32
  jmp r14
putchar:
  ;@ frame back - caller by 0
  out r0
  ldi r13, 255
  and r0, r0, r13
  jmp r14
qsort:
  ;@ frame back 120 caller by 128
  leai r15, r15, -128
  st r15, r7, 80, any, keep
  st r15, r8, 88, any, keep
  st r15, r9, 96, any, keep
  st r15, r10, 104, any, keep
  st r15, r11, 112, any, keep
  st r15, r14, 120, any, keep
  st r15, r1, 56, any, keep
  st r15, r2, 16, any, keep
  st r15, r3, 64, any, keep
  mov r8, r0
  ldi r11, 3
  ldi r10, 0
  ld r12, r15, 56, any, keep
  ldi r13, 2
  ltu r0, r12, r13
  bnz r0, L101
L85:
  ld r12, r15, 56, any, keep
  ldi r13, 1
  shr r12, r12, r13
  st r15, r12, 72, any, keep
  ld r12, r15, 16, any, keep
  ldi r13, 8
  ltu r12, r12, r13
  st r15, r12, 48, any, keep
  ld r12, r15, 16, any, keep
  and r12, r12, r11
  st r15, r12, 24, any, keep
  br L88
L86:
  ldi r12, 1
  ld r13, r15, 56, any, keep
  ltu r0, r12, r13
  bz r0, L101
L87:
  ld r12, r15, 16, any, keep
  ldi r13, 8
  ltu r12, r12, r13
  st r15, r12, 72, any, keep
  ld r12, r15, 16, any, keep
  and r12, r12, r11
  st r15, r12, 48, any, keep
  ld r12, r15, 16, any, keep
  and r12, r12, r11
  st r15, r12, 40, any, keep
  br L102
L88:
  ld r12, r15, 72, any, keep
  addi r12, r12, -1
  st r15, r12, 72, any, keep
  ld r12, r15, 72, any, keep
  ldi r13, 1
  shl r1, r12, r13
  ldi r13, 1
  or r9, r1, r13
  ld r13, r15, 56, any, keep
  ltu r0, r9, r13
  bz r0, L100
L122:
  ld r12, r15, 72, any, keep
  st r15, r12, 0, any, keep
L89:
  addi r7, r1, 2
  ld r13, r15, 56, any, keep
  ltu r0, r7, r13
  bnz r0, L90
L123:
  st r15, r9, 40, any, keep
  br L91
L90:
  ld r13, r15, 16, any, keep
  mul r2, r9, r13
  ld r13, r15, 16, any, keep
  mul r4, r7, r13
  add r3, r8, r2
  isptr r0, r8
  bz r0, L160
  ldi r0, 54
  shr r0, r8, r0
  xor r1, r3, r8
  shr r1, r1, r0
  bnz r1, L160
  lea r3, r8, r2
L160:
  add r2, r8, r4
  isptr r0, r8
  bz r0, L161
  ldi r0, 54
  shr r0, r8, r0
  xor r1, r2, r8
  shr r1, r1, r0
  bnz r1, L161
  lea r2, r8, r4
L161:
  ld r13, r15, 64, any, keep
  mov r0, r3
  mov r1, r2
  jal r14, r13
  lts r0, r0, r10
  mov r13, r7
  bnz r0, L162
  mov r13, r9
L162:
  st r15, r13, 40, any, keep
L91:
  ld r12, r15, 0, any, keep
  ld r13, r15, 16, any, keep
  mul r12, r12, r13
  st r15, r12, 8, any, keep
  ld r12, r15, 40, any, keep
  ld r13, r15, 16, any, keep
  mul r12, r12, r13
  st r15, r12, 0, any, keep
  ld r13, r15, 8, any, keep
  add r3, r8, r13
  isptr r0, r8
  bz r0, L163
  ldi r0, 54
  shr r0, r8, r0
  xor r1, r3, r8
  shr r1, r1, r0
  bnz r1, L163
  lea r3, r8, r13
L163:
  ld r13, r15, 0, any, keep
  add r2, r8, r13
  isptr r0, r8
  bz r0, L164
  ldi r0, 54
  shr r0, r8, r0
  xor r1, r2, r8
  shr r1, r1, r0
  bnz r1, L164
  lea r2, r8, r13
L164:
  ld r13, r15, 64, any, keep
  mov r0, r3
  mov r1, r2
  jal r14, r13
  ldi r12, -1
  lts r0, r12, r0
  bnz r0, L100
L92:
  ld r13, r15, 8, any, keep
  add r1, r8, r13
  ld r13, r15, 0, any, keep
  add r0, r8, r13
  or r0, r0, r1
  ldi r13, 7
  and r0, r0, r13
  eq r0, r0, r10
  eq r0, r0, r10
  ld r12, r15, 48, any, keep
  or r0, r12, r0
  bnz r0, L124
L125:
  ldi r7, 8
  mov r2, r10
  br L93
L124:
  mov r7, r10
  br L94
L93:
  ld r12, r15, 8, any, keep
  add r3, r12, r2
  lea r0, r8, r3
  ld r4, r0, 0, any, keep
  ld r12, r15, 0, any, keep
  add r2, r12, r2
  lea r0, r8, r2
  ld r1, r0, 0, any, keep
  lea r0, r8, r3
  st r0, r1, 0, any, keep
  lea r0, r8, r2
  st r0, r4, 0, any, keep
  addi r1, r7, 8
  ld r12, r15, 16, any, keep
  ltu r0, r12, r1
  bnz r0, L94
L127:
  mov r2, r7
  mov r7, r1
  br L93
L94:
  ld r13, r15, 16, any, keep
  ltu r0, r7, r13
  bz r0, L99
L95:
  ldi r13, -1
  xor r0, r7, r13
  ld r13, r15, 16, any, keep
  add r12, r0, r13
  st r15, r12, 32, any, keep
  ld r12, r15, 24, any, keep
  bz r12, L97
L129:
  mov r6, r10
L96:
  ld r12, r15, 8, any, keep
  add r2, r12, r7
  lea r1, r8, r2
  ldi r13, 7
  and r0, r1, r13
  sub r0, r10, r0
  lea r0, r1, r0
  shl r1, r1, r11
  ld r0, r0, 0, any, keep
  shr r9, r0, r1
  ld r12, r15, 0, any, keep
  add r5, r12, r7
  lea r1, r8, r5
  ldi r13, 7
  and r0, r1, r13
  sub r0, r10, r0
  lea r0, r1, r0
  shl r1, r1, r11
  ld r0, r0, 0, any, keep
  shr r4, r0, r1
  lea r1, r8, r2
  ldi r13, 7
  and r0, r1, r13
  sub r0, r10, r0
  lea r3, r1, r0
  shl r2, r1, r11
  ld r1, r3, 0, any, keep
  shr r0, r1, r2
  xor r0, r0, r4
  ldi r13, 255
  and r0, r0, r13
  shl r0, r0, r2
  xor r0, r1, r0
  st r3, r0, 0, any, keep
  lea r1, r8, r5
  ldi r13, 7
  and r0, r1, r13
  sub r0, r10, r0
  lea r3, r1, r0
  shl r2, r1, r11
  ld r1, r3, 0, any, keep
  shr r0, r1, r2
  xor r0, r0, r9
  ldi r13, 255
  and r0, r0, r13
  shl r0, r0, r2
  xor r0, r1, r0
  st r3, r0, 0, any, keep
  addi r7, r7, 1
  addi r6, r6, 1
  ld r13, r15, 24, any, keep
  eq r0, r6, r13
  bz r0, L96
L97:
  ld r12, r15, 32, any, keep
  ltu r0, r12, r11
  bnz r0, L99
L98:
  ld r12, r15, 8, any, keep
  add r2, r12, r7
  lea r1, r8, r2
  ldi r13, 7
  and r0, r1, r13
  sub r0, r10, r0
  lea r0, r1, r0
  shl r1, r1, r11
  ld r0, r0, 0, any, keep
  shr r6, r0, r1
  ld r12, r15, 0, any, keep
  add r5, r12, r7
  lea r1, r8, r5
  ldi r13, 7
  and r0, r1, r13
  sub r0, r10, r0
  lea r0, r1, r0
  shl r1, r1, r11
  ld r0, r0, 0, any, keep
  shr r4, r0, r1
  lea r1, r8, r2
  ldi r13, 7
  and r0, r1, r13
  sub r0, r10, r0
  lea r3, r1, r0
  shl r2, r1, r11
  ld r1, r3, 0, any, keep
  shr r0, r1, r2
  xor r0, r0, r4
  ldi r13, 255
  and r0, r0, r13
  shl r0, r0, r2
  xor r0, r1, r0
  st r3, r0, 0, any, keep
  lea r1, r8, r5
  ldi r13, 7
  and r0, r1, r13
  sub r0, r10, r0
  lea r3, r1, r0
  shl r2, r1, r11
  ld r1, r3, 0, any, keep
  shr r0, r1, r2
  xor r0, r0, r6
  ldi r13, 255
  and r0, r0, r13
  shl r0, r0, r2
  xor r0, r1, r0
  st r3, r0, 0, any, keep
  addi r2, r7, 1
  ld r12, r15, 8, any, keep
  add r3, r12, r2
  lea r1, r8, r3
  ldi r13, 7
  and r0, r1, r13
  sub r0, r10, r0
  lea r0, r1, r0
  shl r1, r1, r11
  ld r0, r0, 0, any, keep
  shr r6, r0, r1
  ld r12, r15, 0, any, keep
  add r5, r12, r2
  lea r1, r8, r5
  ldi r13, 7
  and r0, r1, r13
  sub r0, r10, r0
  lea r0, r1, r0
  shl r1, r1, r11
  ld r0, r0, 0, any, keep
  shr r4, r0, r1
  lea r1, r8, r3
  ldi r13, 7
  and r0, r1, r13
  sub r0, r10, r0
  lea r3, r1, r0
  shl r2, r1, r11
  ld r1, r3, 0, any, keep
  shr r0, r1, r2
  xor r0, r0, r4
  ldi r13, 255
  and r0, r0, r13
  shl r0, r0, r2
  xor r0, r1, r0
  st r3, r0, 0, any, keep
  lea r1, r8, r5
  ldi r13, 7
  and r0, r1, r13
  sub r0, r10, r0
  lea r3, r1, r0
  shl r2, r1, r11
  ld r1, r3, 0, any, keep
  shr r0, r1, r2
  xor r0, r0, r6
  ldi r13, 255
  and r0, r0, r13
  shl r0, r0, r2
  xor r0, r1, r0
  st r3, r0, 0, any, keep
  addi r2, r7, 2
  ld r12, r15, 8, any, keep
  add r3, r12, r2
  lea r1, r8, r3
  ldi r13, 7
  and r0, r1, r13
  sub r0, r10, r0
  lea r0, r1, r0
  shl r1, r1, r11
  ld r0, r0, 0, any, keep
  shr r6, r0, r1
  ld r12, r15, 0, any, keep
  add r5, r12, r2
  lea r1, r8, r5
  ldi r13, 7
  and r0, r1, r13
  sub r0, r10, r0
  lea r0, r1, r0
  shl r1, r1, r11
  ld r0, r0, 0, any, keep
  shr r4, r0, r1
  lea r1, r8, r3
  ldi r13, 7
  and r0, r1, r13
  sub r0, r10, r0
  lea r3, r1, r0
  shl r2, r1, r11
  ld r1, r3, 0, any, keep
  shr r0, r1, r2
  xor r0, r0, r4
  ldi r13, 255
  and r0, r0, r13
  shl r0, r0, r2
  xor r0, r1, r0
  st r3, r0, 0, any, keep
  lea r1, r8, r5
  ldi r13, 7
  and r0, r1, r13
  sub r0, r10, r0
  lea r3, r1, r0
  shl r2, r1, r11
  ld r1, r3, 0, any, keep
  shr r0, r1, r2
  xor r0, r0, r6
  ldi r13, 255
  and r0, r0, r13
  shl r0, r0, r2
  xor r0, r1, r0
  st r3, r0, 0, any, keep
  addi r2, r7, 3
  ld r12, r15, 8, any, keep
  add r3, r12, r2
  lea r1, r8, r3
  ldi r13, 7
  and r0, r1, r13
  sub r0, r10, r0
  lea r0, r1, r0
  shl r1, r1, r11
  ld r0, r0, 0, any, keep
  shr r6, r0, r1
  ld r12, r15, 0, any, keep
  add r5, r12, r2
  lea r1, r8, r5
  ldi r13, 7
  and r0, r1, r13
  sub r0, r10, r0
  lea r0, r1, r0
  shl r1, r1, r11
  ld r0, r0, 0, any, keep
  shr r4, r0, r1
  lea r1, r8, r3
  ldi r13, 7
  and r0, r1, r13
  sub r0, r10, r0
  lea r3, r1, r0
  shl r2, r1, r11
  ld r1, r3, 0, any, keep
  shr r0, r1, r2
  xor r0, r0, r4
  ldi r13, 255
  and r0, r0, r13
  shl r0, r0, r2
  xor r0, r1, r0
  st r3, r0, 0, any, keep
  lea r1, r8, r5
  ldi r13, 7
  and r0, r1, r13
  sub r0, r10, r0
  lea r3, r1, r0
  shl r2, r1, r11
  ld r1, r3, 0, any, keep
  shr r0, r1, r2
  xor r0, r0, r6
  ldi r13, 255
  and r0, r0, r13
  shl r0, r0, r2
  xor r0, r1, r0
  st r3, r0, 0, any, keep
  addi r7, r7, 4
  ld r13, r15, 16, any, keep
  eq r0, r7, r13
  bz r0, L98
L99:
  ld r12, r15, 40, any, keep
  ldi r13, 1
  shl r1, r12, r13
  ldi r13, 1
  or r9, r1, r13
  ld r13, r15, 56, any, keep
  ltu r0, r9, r13
  bz r0, L100
L134:
  ld r12, r15, 40, any, keep
  st r15, r12, 0, any, keep
  br L89
L100:
  ld r12, r15, 72, any, keep
  bz r12, L86
  br L88
L101:
  ld r7, r15, 80, any, keep
  ld r8, r15, 88, any, keep
  ld r9, r15, 96, any, keep
  ld r10, r15, 104, any, keep
  ld r11, r15, 112, any, keep
  ld r14, r15, 120, any, keep
  leai r15, r15, 128
  jmp r14
L102:
  ld r12, r15, 56, any, keep
  addi r12, r12, -1
  st r15, r12, 56, any, keep
  ld r12, r15, 56, any, keep
  ld r13, r15, 16, any, keep
  mul r12, r12, r13
  st r15, r12, 0, any, keep
  ld r13, r15, 0, any, keep
  add r0, r8, r13
  or r0, r0, r8
  ldi r13, 7
  and r0, r0, r13
  eq r0, r0, r10
  eq r0, r0, r10
  ld r12, r15, 72, any, keep
  or r0, r12, r0
  bnz r0, L136
L137:
  ldi r7, 8
  mov r3, r10
  br L103
L136:
  mov r7, r10
  br L104
L103:
  lea r0, r8, r3
  ld r4, r0, 0, any, keep
  ld r12, r15, 0, any, keep
  add r2, r12, r3
  lea r0, r8, r2
  ld r1, r0, 0, any, keep
  lea r0, r8, r3
  st r0, r1, 0, any, keep
  lea r0, r8, r2
  st r0, r4, 0, any, keep
  addi r1, r7, 8
  ld r12, r15, 16, any, keep
  ltu r0, r12, r1
  bnz r0, L104
L139:
  mov r3, r7
  mov r7, r1
  br L103
L104:
  ld r13, r15, 16, any, keep
  ltu r0, r7, r13
  bz r0, L109
L105:
  ldi r13, -1
  xor r0, r7, r13
  ld r13, r15, 16, any, keep
  add r12, r0, r13
  st r15, r12, 8, any, keep
  ld r12, r15, 48, any, keep
  bz r12, L107
L141:
  mov r6, r10
L106:
  lea r1, r8, r7
  ldi r13, 7
  and r0, r1, r13
  sub r0, r10, r0
  lea r0, r1, r0
  shl r1, r1, r11
  ld r0, r0, 0, any, keep
  shr r9, r0, r1
  ld r12, r15, 0, any, keep
  add r5, r12, r7
  lea r1, r8, r5
  ldi r13, 7
  and r0, r1, r13
  sub r0, r10, r0
  lea r0, r1, r0
  shl r1, r1, r11
  ld r0, r0, 0, any, keep
  shr r4, r0, r1
  lea r1, r8, r7
  ldi r13, 7
  and r0, r1, r13
  sub r0, r10, r0
  lea r3, r1, r0
  shl r2, r1, r11
  ld r1, r3, 0, any, keep
  shr r0, r1, r2
  xor r0, r0, r4
  ldi r13, 255
  and r0, r0, r13
  shl r0, r0, r2
  xor r0, r1, r0
  st r3, r0, 0, any, keep
  lea r1, r8, r5
  ldi r13, 7
  and r0, r1, r13
  sub r0, r10, r0
  lea r3, r1, r0
  shl r2, r1, r11
  ld r1, r3, 0, any, keep
  shr r0, r1, r2
  xor r0, r0, r9
  ldi r13, 255
  and r0, r0, r13
  shl r0, r0, r2
  xor r0, r1, r0
  st r3, r0, 0, any, keep
  addi r7, r7, 1
  addi r6, r6, 1
  ld r13, r15, 48, any, keep
  eq r0, r6, r13
  bz r0, L106
L107:
  ld r12, r15, 8, any, keep
  ltu r0, r12, r11
  bnz r0, L109
L108:
  lea r1, r8, r7
  ldi r13, 7
  and r0, r1, r13
  sub r0, r10, r0
  lea r0, r1, r0
  shl r1, r1, r11
  ld r0, r0, 0, any, keep
  shr r6, r0, r1
  ld r12, r15, 0, any, keep
  add r5, r12, r7
  lea r1, r8, r5
  ldi r13, 7
  and r0, r1, r13
  sub r0, r10, r0
  lea r0, r1, r0
  shl r1, r1, r11
  ld r0, r0, 0, any, keep
  shr r4, r0, r1
  lea r1, r8, r7
  ldi r13, 7
  and r0, r1, r13
  sub r0, r10, r0
  lea r3, r1, r0
  shl r2, r1, r11
  ld r1, r3, 0, any, keep
  shr r0, r1, r2
  xor r0, r0, r4
  ldi r13, 255
  and r0, r0, r13
  shl r0, r0, r2
  xor r0, r1, r0
  st r3, r0, 0, any, keep
  lea r1, r8, r5
  ldi r13, 7
  and r0, r1, r13
  sub r0, r10, r0
  lea r3, r1, r0
  shl r2, r1, r11
  ld r1, r3, 0, any, keep
  shr r0, r1, r2
  xor r0, r0, r6
  ldi r13, 255
  and r0, r0, r13
  shl r0, r0, r2
  xor r0, r1, r0
  st r3, r0, 0, any, keep
  addi r2, r7, 1
  lea r1, r8, r2
  ldi r13, 7
  and r0, r1, r13
  sub r0, r10, r0
  lea r0, r1, r0
  shl r1, r1, r11
  ld r0, r0, 0, any, keep
  shr r6, r0, r1
  ld r12, r15, 0, any, keep
  add r5, r12, r2
  lea r1, r8, r5
  ldi r13, 7
  and r0, r1, r13
  sub r0, r10, r0
  lea r0, r1, r0
  shl r1, r1, r11
  ld r0, r0, 0, any, keep
  shr r4, r0, r1
  lea r1, r8, r2
  ldi r13, 7
  and r0, r1, r13
  sub r0, r10, r0
  lea r3, r1, r0
  shl r2, r1, r11
  ld r1, r3, 0, any, keep
  shr r0, r1, r2
  xor r0, r0, r4
  ldi r13, 255
  and r0, r0, r13
  shl r0, r0, r2
  xor r0, r1, r0
  st r3, r0, 0, any, keep
  lea r1, r8, r5
  ldi r13, 7
  and r0, r1, r13
  sub r0, r10, r0
  lea r3, r1, r0
  shl r2, r1, r11
  ld r1, r3, 0, any, keep
  shr r0, r1, r2
  xor r0, r0, r6
  ldi r13, 255
  and r0, r0, r13
  shl r0, r0, r2
  xor r0, r1, r0
  st r3, r0, 0, any, keep
  addi r2, r7, 2
  lea r1, r8, r2
  ldi r13, 7
  and r0, r1, r13
  sub r0, r10, r0
  lea r0, r1, r0
  shl r1, r1, r11
  ld r0, r0, 0, any, keep
  shr r6, r0, r1
  ld r12, r15, 0, any, keep
  add r5, r12, r2
  lea r1, r8, r5
  ldi r13, 7
  and r0, r1, r13
  sub r0, r10, r0
  lea r0, r1, r0
  shl r1, r1, r11
  ld r0, r0, 0, any, keep
  shr r4, r0, r1
  lea r1, r8, r2
  ldi r13, 7
  and r0, r1, r13
  sub r0, r10, r0
  lea r3, r1, r0
  shl r2, r1, r11
  ld r1, r3, 0, any, keep
  shr r0, r1, r2
  xor r0, r0, r4
  ldi r13, 255
  and r0, r0, r13
  shl r0, r0, r2
  xor r0, r1, r0
  st r3, r0, 0, any, keep
  lea r1, r8, r5
  ldi r13, 7
  and r0, r1, r13
  sub r0, r10, r0
  lea r3, r1, r0
  shl r2, r1, r11
  ld r1, r3, 0, any, keep
  shr r0, r1, r2
  xor r0, r0, r6
  ldi r13, 255
  and r0, r0, r13
  shl r0, r0, r2
  xor r0, r1, r0
  st r3, r0, 0, any, keep
  addi r2, r7, 3
  lea r1, r8, r2
  ldi r13, 7
  and r0, r1, r13
  sub r0, r10, r0
  lea r0, r1, r0
  shl r1, r1, r11
  ld r0, r0, 0, any, keep
  shr r6, r0, r1
  ld r12, r15, 0, any, keep
  add r5, r12, r2
  lea r1, r8, r5
  ldi r13, 7
  and r0, r1, r13
  sub r0, r10, r0
  lea r0, r1, r0
  shl r1, r1, r11
  ld r0, r0, 0, any, keep
  shr r4, r0, r1
  lea r1, r8, r2
  ldi r13, 7
  and r0, r1, r13
  sub r0, r10, r0
  lea r3, r1, r0
  shl r2, r1, r11
  ld r1, r3, 0, any, keep
  shr r0, r1, r2
  xor r0, r0, r4
  ldi r13, 255
  and r0, r0, r13
  shl r0, r0, r2
  xor r0, r1, r0
  st r3, r0, 0, any, keep
  lea r1, r8, r5
  ldi r13, 7
  and r0, r1, r13
  sub r0, r10, r0
  lea r3, r1, r0
  shl r2, r1, r11
  ld r1, r3, 0, any, keep
  shr r0, r1, r2
  xor r0, r0, r6
  ldi r13, 255
  and r0, r0, r13
  shl r0, r0, r2
  xor r0, r1, r0
  st r3, r0, 0, any, keep
  addi r7, r7, 4
  ld r13, r15, 16, any, keep
  eq r0, r7, r13
  bz r0, L108
L109:
  ldi r12, 1
  ld r13, r15, 56, any, keep
  ltu r0, r12, r13
  bz r0, L101
L146:
  ldi r9, 1
  mov r1, r10
  st r15, r10, 0, any, keep
L110:
  addi r7, r1, 2
  ld r13, r15, 56, any, keep
  ltu r0, r7, r13
  bnz r0, L111
L147:
  st r15, r9, 32, any, keep
  br L112
L111:
  ld r13, r15, 16, any, keep
  mul r2, r9, r13
  ld r13, r15, 16, any, keep
  mul r4, r7, r13
  add r3, r8, r2
  isptr r0, r8
  bz r0, L165
  ldi r0, 54
  shr r0, r8, r0
  xor r1, r3, r8
  shr r1, r1, r0
  bnz r1, L165
  lea r3, r8, r2
L165:
  add r2, r8, r4
  isptr r0, r8
  bz r0, L166
  ldi r0, 54
  shr r0, r8, r0
  xor r1, r2, r8
  shr r1, r1, r0
  bnz r1, L166
  lea r2, r8, r4
L166:
  ld r13, r15, 64, any, keep
  mov r0, r3
  mov r1, r2
  jal r14, r13
  lts r0, r0, r10
  mov r13, r7
  bnz r0, L167
  mov r13, r9
L167:
  st r15, r13, 32, any, keep
L112:
  ld r12, r15, 0, any, keep
  ld r13, r15, 16, any, keep
  mul r12, r12, r13
  st r15, r12, 8, any, keep
  ld r12, r15, 32, any, keep
  ld r13, r15, 16, any, keep
  mul r12, r12, r13
  st r15, r12, 0, any, keep
  ld r13, r15, 8, any, keep
  add r3, r8, r13
  isptr r0, r8
  bz r0, L168
  ldi r0, 54
  shr r0, r8, r0
  xor r1, r3, r8
  shr r1, r1, r0
  bnz r1, L168
  lea r3, r8, r13
L168:
  ld r13, r15, 0, any, keep
  add r2, r8, r13
  isptr r0, r8
  bz r0, L169
  ldi r0, 54
  shr r0, r8, r0
  xor r1, r2, r8
  shr r1, r1, r0
  bnz r1, L169
  lea r2, r8, r13
L169:
  ld r13, r15, 64, any, keep
  mov r0, r3
  mov r1, r2
  jal r14, r13
  ldi r12, -1
  lts r0, r12, r0
  bnz r0, L121
L113:
  ld r13, r15, 8, any, keep
  add r1, r8, r13
  ld r13, r15, 0, any, keep
  add r0, r8, r13
  or r0, r0, r1
  ldi r13, 7
  and r0, r0, r13
  eq r0, r0, r10
  eq r0, r0, r10
  ld r12, r15, 72, any, keep
  or r0, r12, r0
  bnz r0, L148
L149:
  ldi r7, 8
  mov r2, r10
  br L114
L148:
  mov r7, r10
  br L115
L114:
  ld r12, r15, 8, any, keep
  add r3, r12, r2
  lea r0, r8, r3
  ld r4, r0, 0, any, keep
  ld r12, r15, 0, any, keep
  add r2, r12, r2
  lea r0, r8, r2
  ld r1, r0, 0, any, keep
  lea r0, r8, r3
  st r0, r1, 0, any, keep
  lea r0, r8, r2
  st r0, r4, 0, any, keep
  addi r1, r7, 8
  ld r12, r15, 16, any, keep
  ltu r0, r12, r1
  bnz r0, L115
L151:
  mov r2, r7
  mov r7, r1
  br L114
L115:
  ld r13, r15, 16, any, keep
  ltu r0, r7, r13
  bz r0, L120
L116:
  ldi r13, -1
  xor r0, r7, r13
  ld r13, r15, 16, any, keep
  add r12, r0, r13
  st r15, r12, 24, any, keep
  ld r12, r15, 40, any, keep
  bz r12, L118
L153:
  mov r6, r10
L117:
  ld r12, r15, 8, any, keep
  add r2, r12, r7
  lea r1, r8, r2
  ldi r13, 7
  and r0, r1, r13
  sub r0, r10, r0
  lea r0, r1, r0
  shl r1, r1, r11
  ld r0, r0, 0, any, keep
  shr r9, r0, r1
  ld r12, r15, 0, any, keep
  add r5, r12, r7
  lea r1, r8, r5
  ldi r13, 7
  and r0, r1, r13
  sub r0, r10, r0
  lea r0, r1, r0
  shl r1, r1, r11
  ld r0, r0, 0, any, keep
  shr r4, r0, r1
  lea r1, r8, r2
  ldi r13, 7
  and r0, r1, r13
  sub r0, r10, r0
  lea r3, r1, r0
  shl r2, r1, r11
  ld r1, r3, 0, any, keep
  shr r0, r1, r2
  xor r0, r0, r4
  ldi r13, 255
  and r0, r0, r13
  shl r0, r0, r2
  xor r0, r1, r0
  st r3, r0, 0, any, keep
  lea r1, r8, r5
  ldi r13, 7
  and r0, r1, r13
  sub r0, r10, r0
  lea r3, r1, r0
  shl r2, r1, r11
  ld r1, r3, 0, any, keep
  shr r0, r1, r2
  xor r0, r0, r9
  ldi r13, 255
  and r0, r0, r13
  shl r0, r0, r2
  xor r0, r1, r0
  st r3, r0, 0, any, keep
  addi r7, r7, 1
  addi r6, r6, 1
  ld r13, r15, 40, any, keep
  eq r0, r6, r13
  bz r0, L117
L118:
  ld r12, r15, 24, any, keep
  ltu r0, r12, r11
  bnz r0, L120
L119:
  ld r12, r15, 8, any, keep
  add r2, r12, r7
  lea r1, r8, r2
  ldi r13, 7
  and r0, r1, r13
  sub r0, r10, r0
  lea r0, r1, r0
  shl r1, r1, r11
  ld r0, r0, 0, any, keep
  shr r6, r0, r1
  ld r12, r15, 0, any, keep
  add r5, r12, r7
  lea r1, r8, r5
  ldi r13, 7
  and r0, r1, r13
  sub r0, r10, r0
  lea r0, r1, r0
  shl r1, r1, r11
  ld r0, r0, 0, any, keep
  shr r4, r0, r1
  lea r1, r8, r2
  ldi r13, 7
  and r0, r1, r13
  sub r0, r10, r0
  lea r3, r1, r0
  shl r2, r1, r11
  ld r1, r3, 0, any, keep
  shr r0, r1, r2
  xor r0, r0, r4
  ldi r13, 255
  and r0, r0, r13
  shl r0, r0, r2
  xor r0, r1, r0
  st r3, r0, 0, any, keep
  lea r1, r8, r5
  ldi r13, 7
  and r0, r1, r13
  sub r0, r10, r0
  lea r3, r1, r0
  shl r2, r1, r11
  ld r1, r3, 0, any, keep
  shr r0, r1, r2
  xor r0, r0, r6
  ldi r13, 255
  and r0, r0, r13
  shl r0, r0, r2
  xor r0, r1, r0
  st r3, r0, 0, any, keep
  addi r2, r7, 1
  ld r12, r15, 8, any, keep
  add r3, r12, r2
  lea r1, r8, r3
  ldi r13, 7
  and r0, r1, r13
  sub r0, r10, r0
  lea r0, r1, r0
  shl r1, r1, r11
  ld r0, r0, 0, any, keep
  shr r6, r0, r1
  ld r12, r15, 0, any, keep
  add r5, r12, r2
  lea r1, r8, r5
  ldi r13, 7
  and r0, r1, r13
  sub r0, r10, r0
  lea r0, r1, r0
  shl r1, r1, r11
  ld r0, r0, 0, any, keep
  shr r4, r0, r1
  lea r1, r8, r3
  ldi r13, 7
  and r0, r1, r13
  sub r0, r10, r0
  lea r3, r1, r0
  shl r2, r1, r11
  ld r1, r3, 0, any, keep
  shr r0, r1, r2
  xor r0, r0, r4
  ldi r13, 255
  and r0, r0, r13
  shl r0, r0, r2
  xor r0, r1, r0
  st r3, r0, 0, any, keep
  lea r1, r8, r5
  ldi r13, 7
  and r0, r1, r13
  sub r0, r10, r0
  lea r3, r1, r0
  shl r2, r1, r11
  ld r1, r3, 0, any, keep
  shr r0, r1, r2
  xor r0, r0, r6
  ldi r13, 255
  and r0, r0, r13
  shl r0, r0, r2
  xor r0, r1, r0
  st r3, r0, 0, any, keep
  addi r2, r7, 2
  ld r12, r15, 8, any, keep
  add r3, r12, r2
  lea r1, r8, r3
  ldi r13, 7
  and r0, r1, r13
  sub r0, r10, r0
  lea r0, r1, r0
  shl r1, r1, r11
  ld r0, r0, 0, any, keep
  shr r6, r0, r1
  ld r12, r15, 0, any, keep
  add r5, r12, r2
  lea r1, r8, r5
  ldi r13, 7
  and r0, r1, r13
  sub r0, r10, r0
  lea r0, r1, r0
  shl r1, r1, r11
  ld r0, r0, 0, any, keep
  shr r4, r0, r1
  lea r1, r8, r3
  ldi r13, 7
  and r0, r1, r13
  sub r0, r10, r0
  lea r3, r1, r0
  shl r2, r1, r11
  ld r1, r3, 0, any, keep
  shr r0, r1, r2
  xor r0, r0, r4
  ldi r13, 255
  and r0, r0, r13
  shl r0, r0, r2
  xor r0, r1, r0
  st r3, r0, 0, any, keep
  lea r1, r8, r5
  ldi r13, 7
  and r0, r1, r13
  sub r0, r10, r0
  lea r3, r1, r0
  shl r2, r1, r11
  ld r1, r3, 0, any, keep
  shr r0, r1, r2
  xor r0, r0, r6
  ldi r13, 255
  and r0, r0, r13
  shl r0, r0, r2
  xor r0, r1, r0
  st r3, r0, 0, any, keep
  addi r2, r7, 3
  ld r12, r15, 8, any, keep
  add r3, r12, r2
  lea r1, r8, r3
  ldi r13, 7
  and r0, r1, r13
  sub r0, r10, r0
  lea r0, r1, r0
  shl r1, r1, r11
  ld r0, r0, 0, any, keep
  shr r6, r0, r1
  ld r12, r15, 0, any, keep
  add r5, r12, r2
  lea r1, r8, r5
  ldi r13, 7
  and r0, r1, r13
  sub r0, r10, r0
  lea r0, r1, r0
  shl r1, r1, r11
  ld r0, r0, 0, any, keep
  shr r4, r0, r1
  lea r1, r8, r3
  ldi r13, 7
  and r0, r1, r13
  sub r0, r10, r0
  lea r3, r1, r0
  shl r2, r1, r11
  ld r1, r3, 0, any, keep
  shr r0, r1, r2
  xor r0, r0, r4
  ldi r13, 255
  and r0, r0, r13
  shl r0, r0, r2
  xor r0, r1, r0
  st r3, r0, 0, any, keep
  lea r1, r8, r5
  ldi r13, 7
  and r0, r1, r13
  sub r0, r10, r0
  lea r3, r1, r0
  shl r2, r1, r11
  ld r1, r3, 0, any, keep
  shr r0, r1, r2
  xor r0, r0, r6
  ldi r13, 255
  and r0, r0, r13
  shl r0, r0, r2
  xor r0, r1, r0
  st r3, r0, 0, any, keep
  addi r7, r7, 4
  ld r13, r15, 16, any, keep
  eq r0, r7, r13
  bz r0, L119
L120:
  ld r12, r15, 32, any, keep
  ldi r13, 1
  shl r1, r12, r13
  ldi r13, 1
  or r9, r1, r13
  ld r13, r15, 56, any, keep
  ltu r0, r9, r13
  bz r0, L121
L158:
  ld r12, r15, 32, any, keep
  st r15, r12, 0, any, keep
  br L110
L121:
  ldi r12, 1
  ld r13, r15, 56, any, keep
  ltu r0, r12, r13
  bnz r0, L102
  br L101
compare:
  ;@ function compare at examples/c/sort.c:44
  ;@ frame back - caller by 0
  mov r2, r1
  ldi r4, 4
  ldi r3, 32
  ;@ line examples/c/sort.c:46
  ;@ var a 9 r0
  ;@ var b 9 r2
  and r1, r0, r4
  bnz r1, L171
  ld r1, r0, 0, any, keep
  br L172
L171:
  ld r1, r0, -4, any, keep
  shr r1, r1, r3
L172:
  ;@ var a 9 -
  and r0, r2, r4
  bnz r0, L173
  ld r0, r2, 0, any, keep
  br L174
L173:
  ld r0, r2, -4, any, keep
  shr r0, r0, r3
L174:
  ;@ var b 9 -
  sub r0, r1, r0
  shl r0, r0, r3
  sar r0, r0, r3
  jmp r14
by_merging:
  ;@ function by_merging at examples/c/sort.c:34
  ;@ inlined 1 merge at examples/c/sort.c:41
  ;@ frame back 80 caller by 88
  leai r15, r15, -88
  st r15, r7, 40, any, keep
  st r15, r8, 48, any, keep
  st r15, r9, 56, any, keep
  st r15, r10, 64, any, keep
  st r15, r11, 72, any, keep
  st r15, r14, 80, any, keep
  st r15, r1, 16, any, keep
  st r15, r3, 0, any, keep
  mov r11, r0
  mov r7, r2
  ldi r8, 32
  ldi r9, 2
  ldi r10, 4
  ldi r13, 0
  ldhi r13, 4294967295
  and r12, r7, r13
  st r15, r12, 32, any, keep
  ;@ line examples/c/sort.c:36
  ;@ var a 10 r11
  ;@ var room 10 s16
  ;@ var from 1 r7
  ;@ var to 1 s0
  ld r12, r15, 0, any, keep
  sub r0, r12, r7
  shl r0, r0, r8
  sar r12, r0, r8
  st r15, r12, 24, any, keep
  ld r12, r15, 24, any, keep
  lts r0, r12, r9
  bnz r0, L185
L176:
  ;@ line examples/c/sort.c:38
  ld r12, r15, 0, any, keep
  add r0, r12, r7
  shl r0, r0, r8
  sar r0, r0, r8
  ldi r13, 63
  sar r1, r0, r13
  xor r0, r0, r1
  sub r0, r0, r1
  divu r0, r0, r9
  xor r0, r0, r1
  sub r12, r0, r1
  st r15, r12, 8, any, keep
  ;@ line examples/c/sort.c:39
  ;@ var middle 1 s8
  mov r0, r11
  mov r2, r7
  ld r1, r15, 16, any, keep
  ld r3, r15, 8, any, keep
  lip r14, 2
  br by_merging
  ;@ line examples/c/sort.c:40
  mov r0, r11
  ld r1, r15, 16, any, keep
  ld r2, r15, 8, any, keep
  ld r3, r15, 0, any, keep
  lip r14, 2
  br by_merging
  ;@ line examples/c/sort.c:29 in 1
  ;@ var a 10 r11 in 1
  ;@ var room 10 s16 in 1
  ;@ var from 1 r7 in 1
  ;@ var middle 1 s8 in 1
  ;@ var to 1 s0 in 1
  ;@ var i 1 r7 in 1
  ;@ var j 1 s8 in 1
  ;@ var k 1 r7 in 1
  ld r13, r15, 0, any, keep
  lts r0, r7, r13
  bz r0, L184
L177:
  mov r6, r7
  ld r3, r15, 8, any, keep
L178:
  ;@ line examples/c/sort.c:30 in 1
  ;@ var from 1 s32
  ;@ var from 1 s32 in 1
  ;@ var k 1 r6 in 1
  ;@ var j 1 r3 in 1
  ld r13, r15, 8, any, keep
  lts r0, r7, r13
  bz r0, L182
L179:
  ld r13, r15, 0, any, keep
  lts r0, r3, r13
  bz r0, L181
L180:
  shl r0, r7, r9
  lea r0, r11, r0
  and r2, r0, r10
  bnz r2, L187
  ld r2, r0, 0, any, keep
  shl r2, r2, r8
  br L188
L187:
  ld r2, r0, -4, any, keep
L188:
  sar r2, r2, r8
  shl r0, r3, r9
  lea r1, r11, r0
  and r0, r1, r10
  bnz r0, L189
  ld r0, r1, 0, any, keep
  shl r0, r0, r8
  br L190
L189:
  ld r0, r1, -4, any, keep
L190:
  sar r0, r0, r8
  lts r0, r0, r2
  bnz r0, L182
L181:
  addi r0, r7, 1
  shl r0, r0, r8
  sar r5, r0, r8
  ;@ var i 1 - in 1
  mov r4, r3
  ;@ var j 1 - in 1
  mov r3, r7
  br L183
L182:
  ;@ var i 1 r7 in 1
  ;@ var j 1 r3 in 1
  addi r0, r3, 1
  shl r0, r0, r8
  sar r4, r0, r8
  ;@ var j 1 r4 in 1
  mov r5, r7
L183:
  ;@ var i 1 - in 1
  ;@ var j 1 - in 1
  shl r0, r3, r9
  lea r0, r11, r0
  and r3, r0, r10
  bnz r3, L191
  ld r3, r0, 0, any, keep
  br L192
L191:
  ld r3, r0, -4, any, keep
  shr r3, r3, r8
L192:
  ;@ var j 1 r4 in 1
  ;@ var i 1 r5 in 1
  shl r0, r6, r9
  ld r12, r15, 16, any, keep
  lea r2, r12, r0
  and r0, r2, r10
  bnz r0, L193
  ld r0, r2, 0, any, keep
  xor r1, r0, r3
  shl r1, r1, r8
  shr r1, r1, r8
  xor r0, r0, r1
  st r2, r0, 0, any, keep
  br L194
L193:
  ld r0, r2, -4, any, keep
  shl r0, r0, r8
  shr r0, r0, r8
  shl r1, r3, r8
  or r0, r0, r1
  st r2, r0, -4, any, keep
L194:
  ;@ line examples/c/sort.c:29 in 1
  addi r6, r6, 1
  ld r13, r15, 0, any, keep
  eq r0, r6, r13
  bnz r0, L184
L186:
  ;@ var k 1 - in 1
  mov r3, r4
  ;@ var j 1 - in 1
  mov r7, r5
  ;@ var i 1 - in 1
  br L178
L184:
  ;@ line examples/c/sort.c:31 in 1
  ;@ var to 1 -
  ;@ var middle 1 -
  ;@ var middle 1 - in 1
  ;@ var to 1 - in 1
  ld r12, r15, 32, any, keep
  shl r5, r12, r9
  ld r12, r15, 32, any, keep
  shl r2, r12, r9
  ;@ var from 1 -
  ;@ var from 1 - in 1
  ld r12, r15, 24, any, keep
  shl r4, r12, r9
  ld r12, r15, 16, any, keep
  add r3, r12, r2
  isptr r0, r12
  bz r0, L195
  ldi r0, 54
  shr r0, r12, r0
  xor r1, r3, r12
  shr r1, r1, r0
  bnz r1, L195
  lea r3, r12, r2
L195:
  ;@ var room 10 -
  ;@ var room 10 - in 1
  add r2, r11, r5
  isptr r0, r11
  bz r0, L196
  ldi r0, 54
  shr r0, r11, r0
  xor r1, r2, r11
  shr r1, r1, r0
  bnz r1, L196
  lea r2, r11, r5
L196:
  ;@ var a 10 -
  ;@ var a 10 - in 1
  mov r0, r2
  mov r1, r3
  mov r2, r4
  lip r14, 2
  br memcpy
L185:
  ;@ line examples/c/sort.c:42
  ld r7, r15, 40, any, keep
  ld r8, r15, 48, any, keep
  ld r9, r15, 56, any, keep
  ld r10, r15, 64, any, keep
  ld r11, r15, 72, any, keep
  ld r14, r15, 80, any, keep
  leai r15, r15, 88
  jmp r14
memcpy:
  ;@ frame back - caller by 64
  leai r15, r15, -64
  st r15, r7, 24, any, keep
  st r15, r8, 32, any, keep
  st r15, r9, 40, any, keep
  st r15, r10, 48, any, keep
  st r15, r11, 56, any, keep
  st r15, r1, 0, any, keep
  st r15, r2, 8, any, keep
  mov r11, r0
  ldi r8, 7
  ldi r9, 0
  ldi r10, 3
  ldi r6, 1
  ldi r7, 2
  ld r12, r15, 0, any, keep
  xor r0, r12, r11
  and r0, r0, r8
  bz r0, L198
L223:
  mov r6, r9
  br L217
L198:
  ld r12, r15, 8, any, keep
  bnz r12, L199
L224:
  mov r4, r9
  br L215
L199:
  sub r0, r9, r11
  and r4, r0, r8
  bz r4, L215
L200:
  ld r12, r15, 0, any, keep
  and r0, r12, r8
  sub r0, r9, r0
  ld r12, r15, 0, any, keep
  lea r0, r12, r0
  ld r12, r15, 0, any, keep
  shl r1, r12, r10
  ld r0, r0, 0, any, keep
  shr r5, r0, r1
  and r0, r11, r8
  sub r0, r9, r0
  lea r3, r11, r0
  shl r2, r11, r10
  ld r1, r3, 0, any, keep
  shr r0, r1, r2
  xor r0, r0, r5
  ldi r13, 255
  and r0, r0, r13
  shl r0, r0, r2
  xor r0, r1, r0
  st r3, r0, 0, any, keep
  ld r12, r15, 8, any, keep
  eq r0, r12, r6
  bz r0, L201
L226:
  ld r4, r15, 8, any, keep
  br L215
L201:
  eq r0, r4, r6
  bnz r0, L215
L202:
  ld r12, r15, 0, any, keep
  leai r1, r12, 1
  and r0, r1, r8
  sub r0, r9, r0
  lea r0, r1, r0
  shl r1, r1, r10
  ld r0, r0, 0, any, keep
  shr r5, r0, r1
  leai r1, r11, 1
  and r0, r1, r8
  sub r0, r9, r0
  lea r3, r1, r0
  shl r2, r1, r10
  ld r1, r3, 0, any, keep
  shr r0, r1, r2
  xor r0, r0, r5
  ldi r13, 255
  and r0, r0, r13
  shl r0, r0, r2
  xor r0, r1, r0
  st r3, r0, 0, any, keep
  ld r12, r15, 8, any, keep
  eq r0, r12, r7
  bz r0, L203
L228:
  ld r4, r15, 8, any, keep
  br L215
L203:
  eq r0, r4, r7
  bnz r0, L215
L204:
  ld r12, r15, 0, any, keep
  leai r1, r12, 2
  and r0, r1, r8
  sub r0, r9, r0
  lea r0, r1, r0
  shl r1, r1, r10
  ld r0, r0, 0, any, keep
  shr r5, r0, r1
  leai r1, r11, 2
  and r0, r1, r8
  sub r0, r9, r0
  lea r3, r1, r0
  shl r2, r1, r10
  ld r1, r3, 0, any, keep
  shr r0, r1, r2
  xor r0, r0, r5
  ldi r13, 255
  and r0, r0, r13
  shl r0, r0, r2
  xor r0, r1, r0
  st r3, r0, 0, any, keep
  ld r12, r15, 8, any, keep
  eq r0, r12, r10
  bz r0, L205
L230:
  ld r4, r15, 8, any, keep
  br L215
L205:
  eq r0, r4, r10
  bnz r0, L215
L206:
  ld r12, r15, 0, any, keep
  leai r1, r12, 3
  and r0, r1, r8
  sub r0, r9, r0
  lea r0, r1, r0
  shl r1, r1, r10
  ld r0, r0, 0, any, keep
  shr r5, r0, r1
  leai r1, r11, 3
  and r0, r1, r8
  sub r0, r9, r0
  lea r3, r1, r0
  shl r2, r1, r10
  ld r1, r3, 0, any, keep
  shr r0, r1, r2
  xor r0, r0, r5
  ldi r13, 255
  and r0, r0, r13
  shl r0, r0, r2
  xor r0, r1, r0
  st r3, r0, 0, any, keep
  ld r12, r15, 8, any, keep
  ldi r13, 4
  eq r0, r12, r13
  bz r0, L207
L232:
  ld r4, r15, 8, any, keep
  br L215
L207:
  ldi r13, 4
  eq r0, r4, r13
  bnz r0, L215
L208:
  ld r12, r15, 0, any, keep
  leai r1, r12, 4
  and r0, r1, r8
  sub r0, r9, r0
  lea r0, r1, r0
  shl r1, r1, r10
  ld r0, r0, 0, any, keep
  shr r5, r0, r1
  leai r1, r11, 4
  and r0, r1, r8
  sub r0, r9, r0
  lea r3, r1, r0
  shl r2, r1, r10
  ld r1, r3, 0, any, keep
  shr r0, r1, r2
  xor r0, r0, r5
  ldi r13, 255
  and r0, r0, r13
  shl r0, r0, r2
  xor r0, r1, r0
  st r3, r0, 0, any, keep
  ld r12, r15, 8, any, keep
  ldi r13, 5
  eq r0, r12, r13
  bz r0, L209
L234:
  ld r4, r15, 8, any, keep
  br L215
L209:
  ldi r13, 5
  eq r0, r4, r13
  bnz r0, L215
L210:
  ld r12, r15, 0, any, keep
  leai r1, r12, 5
  and r0, r1, r8
  sub r0, r9, r0
  lea r0, r1, r0
  shl r1, r1, r10
  ld r0, r0, 0, any, keep
  shr r5, r0, r1
  leai r1, r11, 5
  and r0, r1, r8
  sub r0, r9, r0
  lea r3, r1, r0
  shl r2, r1, r10
  ld r1, r3, 0, any, keep
  shr r0, r1, r2
  xor r0, r0, r5
  ldi r13, 255
  and r0, r0, r13
  shl r0, r0, r2
  xor r0, r1, r0
  st r3, r0, 0, any, keep
  ld r12, r15, 8, any, keep
  ldi r13, 6
  eq r0, r12, r13
  bz r0, L211
L236:
  ld r4, r15, 8, any, keep
  br L215
L211:
  ldi r13, 6
  eq r0, r4, r13
  bnz r0, L215
L212:
  ld r12, r15, 0, any, keep
  leai r1, r12, 6
  and r0, r1, r8
  sub r0, r9, r0
  lea r0, r1, r0
  shl r1, r1, r10
  ld r0, r0, 0, any, keep
  shr r5, r0, r1
  leai r1, r11, 6
  and r0, r1, r8
  sub r0, r9, r0
  lea r3, r1, r0
  shl r2, r1, r10
  ld r1, r3, 0, any, keep
  shr r0, r1, r2
  xor r0, r0, r5
  ldi r13, 255
  and r0, r0, r13
  shl r0, r0, r2
  xor r0, r1, r0
  st r3, r0, 0, any, keep
  ld r12, r15, 8, any, keep
  eq r0, r12, r8
  bz r0, L213
L238:
  ld r4, r15, 8, any, keep
  br L215
L213:
  eq r0, r4, r8
  bnz r0, L215
L214:
  ld r12, r15, 0, any, keep
  leai r1, r12, 7
  and r0, r1, r8
  sub r0, r9, r0
  lea r0, r1, r0
  shl r1, r1, r10
  ld r0, r0, 0, any, keep
  shr r4, r0, r1
  leai r1, r11, 7
  and r0, r1, r8
  sub r0, r9, r0
  lea r3, r1, r0
  shl r2, r1, r10
  ld r1, r3, 0, any, keep
  shr r0, r1, r2
  xor r0, r0, r4
  ldi r13, 255
  and r0, r0, r13
  shl r0, r0, r2
  xor r0, r1, r0
  st r3, r0, 0, any, keep
  ld r4, r15, 8, any, keep
L215:
  addi r6, r4, 8
  ld r12, r15, 8, any, keep
  ltu r0, r12, r6
  bz r0, L216
L240:
  mov r6, r4
  br L217
L216:
  ld r12, r15, 0, any, keep
  lea r0, r12, r4
  ld r1, r0, 0, any, keep
  lea r0, r11, r4
  st r0, r1, 0, any, keep
  addi r1, r6, 8
  ld r12, r15, 8, any, keep
  ltu r0, r12, r1
  bnz r0, L217
L243:
  mov r4, r6
  mov r6, r1
  br L216
L217:
  ld r13, r15, 8, any, keep
  ltu r0, r6, r13
  bz r0, L222
L218:
  ld r12, r15, 8, any, keep
  sub r1, r12, r6
  ldi r13, -1
  xor r0, r6, r13
  ld r13, r15, 8, any, keep
  add r12, r0, r13
  st r15, r12, 16, any, keep
  and r7, r1, r10
  bz r7, L220
L245:
  mov r5, r9
L219:
  ld r12, r15, 0, any, keep
  lea r1, r12, r6
  and r0, r1, r8
  sub r0, r9, r0
  lea r0, r1, r0
  shl r1, r1, r10
  ld r0, r0, 0, any, keep
  shr r4, r0, r1
  lea r1, r11, r6
  and r0, r1, r8
  sub r0, r9, r0
  lea r3, r1, r0
  shl r2, r1, r10
  ld r1, r3, 0, any, keep
  shr r0, r1, r2
  xor r0, r0, r4
  ldi r13, 255
  and r0, r0, r13
  shl r0, r0, r2
  xor r0, r1, r0
  st r3, r0, 0, any, keep
  addi r6, r6, 1
  addi r5, r5, 1
  eq r0, r5, r7
  bz r0, L219
L220:
  ld r12, r15, 16, any, keep
  ltu r0, r12, r10
  bnz r0, L222
L221:
  ld r12, r15, 0, any, keep
  lea r1, r12, r6
  and r0, r1, r8
  sub r0, r9, r0
  lea r0, r1, r0
  shl r1, r1, r10
  ld r0, r0, 0, any, keep
  shr r4, r0, r1
  lea r1, r11, r6
  and r0, r1, r8
  sub r0, r9, r0
  lea r3, r1, r0
  shl r2, r1, r10
  ld r1, r3, 0, any, keep
  shr r0, r1, r2
  xor r0, r0, r4
  ldi r13, 255
  and r0, r0, r13
  shl r0, r0, r2
  xor r0, r1, r0
  st r3, r0, 0, any, keep
  addi r2, r6, 1
  ld r12, r15, 0, any, keep
  lea r1, r12, r2
  and r0, r1, r8
  sub r0, r9, r0
  lea r0, r1, r0
  shl r1, r1, r10
  ld r0, r0, 0, any, keep
  shr r4, r0, r1
  lea r1, r11, r2
  and r0, r1, r8
  sub r0, r9, r0
  lea r3, r1, r0
  shl r2, r1, r10
  ld r1, r3, 0, any, keep
  shr r0, r1, r2
  xor r0, r0, r4
  ldi r13, 255
  and r0, r0, r13
  shl r0, r0, r2
  xor r0, r1, r0
  st r3, r0, 0, any, keep
  addi r2, r6, 2
  ld r12, r15, 0, any, keep
  lea r1, r12, r2
  and r0, r1, r8
  sub r0, r9, r0
  lea r0, r1, r0
  shl r1, r1, r10
  ld r0, r0, 0, any, keep
  shr r4, r0, r1
  lea r1, r11, r2
  and r0, r1, r8
  sub r0, r9, r0
  lea r3, r1, r0
  shl r2, r1, r10
  ld r1, r3, 0, any, keep
  shr r0, r1, r2
  xor r0, r0, r4
  ldi r13, 255
  and r0, r0, r13
  shl r0, r0, r2
  xor r0, r1, r0
  st r3, r0, 0, any, keep
  addi r2, r6, 3
  ld r12, r15, 0, any, keep
  lea r1, r12, r2
  and r0, r1, r8
  sub r0, r9, r0
  lea r0, r1, r0
  shl r1, r1, r10
  ld r0, r0, 0, any, keep
  shr r4, r0, r1
  lea r1, r11, r2
  and r0, r1, r8
  sub r0, r9, r0
  lea r3, r1, r0
  shl r2, r1, r10
  ld r1, r3, 0, any, keep
  shr r0, r1, r2
  xor r0, r0, r4
  ldi r13, 255
  and r0, r0, r13
  shl r0, r0, r2
  xor r0, r1, r0
  st r3, r0, 0, any, keep
  addi r6, r6, 4
  ld r13, r15, 8, any, keep
  eq r0, r6, r13
  bz r0, L221
L222:
  mov r0, r11
  ld r7, r15, 24, any, keep
  ld r8, r15, 32, any, keep
  ld r9, r15, 40, any, keep
  ld r10, r15, 48, any, keep
  ld r11, r15, 56, any, keep
  leai r15, r15, 64
  jmp r14
P_0: .ptr rw seed+4
P_1: .ptr ro _str+5
P_2: .ptr ro _str_1+5
P_3: .ptr rw stdout+0
P_4: .ptr ro _str_2+0
P_5: .ptr ro _str_3+1
P_6: .ptr ro _str_4+2
P_7: .ptr ro _str_5+2
P_8: .ptr ro _str_6+4
P_9: .ptr ro _str_7+7
.segment seed 3
  ;@ global seed 4 at 4 type 11
  .int 0x303900000000
.segment _str_1 4
  ;@ unnamed at 5 constant
  .int 0x6c6c610000000000
  .int 0xa656b696c6120
.segment _str 4
  ;@ unnamed at 5 constant
  .int 0x6669640000000000
  .int 0xa746e65726566
.segment stdout 3
  ;@ global stdout 8 at 0
  .ptr rw files+8
.segment _str_2 3
  ;@ unnamed at 0 constant
  .int 0x72656c6b63654b
.segment _str_3 3
  ;@ unnamed at 1 constant
  .int 0x72657472614300
.segment _str_4 3
  ;@ unnamed at 2 constant
  .int 0x796c6c61440000
.segment _str_5 3
  ;@ unnamed at 2 constant
  .int 0x6f6c6c69460000
.segment _str_6 3
  ;@ unnamed at 4 constant
  .int 0x65654c00000000
.segment _str_7 4
  ;@ unnamed at 7 constant
  .int 0x4700000000000000
  .int 0x68636976657275
.segment files 4
  ;@ global files 12 at 4
  .fill 1
  .int 0x200000001
.segment stack 16
.thread 0 0 none xu start
.reg 15 ptr rw stack+65472
;@ type 1 base i4 int
;@ type 2 base i8 long
;@ type 3 base u8 unsigned long
;@ type 4 pointer 5
;@ type 5 base i1 char
;@ type 6 array 20 5
;@ type 7 array 24 1
;@ type 8 array 6 4
;@ type 9 pointer 0
;@ type 10 pointer 1
;@ type 11 base u4 unsigned int
