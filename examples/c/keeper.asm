.segment keeper_text 12
start:
  ldi r0, 1
  ldi r1, 0
  lip r14, 2
  br keeper_main
  halt
keeper_main:
  ;@ function main at examples/c/keeper.c:41
  ;@ inlined 1 serve at examples/c/keeper.c:46
  ;@ inlined 2 say at examples/c/keeper.c:20 in 1
  ;@ inlined 3 say_number at examples/c/keeper.c:21 in 1
  ;@ inlined 4 say at examples/c/keeper.c:24 in 1
  ;@ inlined 5 second_operand at examples/c/keeper.c:25 in 1
  ;@ inlined 6 say at examples/c/keeper.c:29 in 1
  ;@ inlined 7 say at examples/c/keeper.c:33 in 1
  ;@ inlined 8 say_number at examples/c/keeper.c:34 in 1
  ;@ inlined 9 say at examples/c/keeper.c:35 in 1
  ;@ frame back 64 caller at 72
  ;@ local digits 20 at 104 log 5 type 9 in 8
  ;@ local digits 20 at 136 log 5 type 9 in 3
  ;@ local event 32 at 160 log 5 type 2
  ldi r13, 31
  and r13, r15, r13
  ldi r12, -192
  sub r13, r12, r13
  lea r12, r15, r13
  st r12, r15, 72, any, keep
  mov r15, r12
  st r15, r7, 24, any, keep
  st r15, r8, 32, any, keep
  st r15, r9, 40, any, keep
  st r15, r10, 48, any, keep
  st r15, r11, 56, any, keep
  st r15, r14, 64, any, keep
  leai r12, r15, 104
  ldi r14, 5
  subseg r12, r12, r14
  st r15, r12, 8, any, keep
  leai r9, r15, 136
  ldi r14, 5
  subseg r9, r9, r14
  leai r12, r15, 160
  ldi r14, 5
  subseg r12, r12, r14
  st r15, r12, 16, any, keep
  ldi r11, 10
  ldi r10, 32
L2:
  ;@ line examples/c/keeper.c:45
  ld r0, r15, 16, any, keep
  lip r14, 2
  br keeper_mm_event
  ;@ line examples/c/keeper.c:19 in 1
  ;@ var event 1 f160:5 in 1
  ld r8, r15, 160, any, keep
  ldi r13, 8
  sar r12, r8, r13
  st r15, r12, 0, any, keep
  ;@ line examples/c/say.h:8 in 2
  ;@ var slot 3 s0 in 1
  ;@ var text 5 @keeper__str in 2
  lip r12, P_0
  ld r12, r12, 0, any, keep
  ld r3, r12, 0, any, keep
  lip r0, P_1
  ld r0, r0, 0, any, keep
  ldi r1, 5
  ldi r2, 1
  lip r14, 2
  br keeper_fwrite
  ;@ line examples/c/say.h:15 in 3
  ;@ var number 3 s0 in 3
  ;@ var length 7 0 in 3
  ldi r12, 0
  ld r13, r15, 0, any, keep
  sub r1, r12, r13
  ldi r13, 0
  lts r0, r8, r13
  mov r7, r1
  bnz r0, L23
  ld r7, r15, 0, any, keep
L23:
  ;@ line examples/c/say.h:16 in 3
  ;@ var rest 8 r7 in 3
  ldi r13, 0
  lts r0, r8, r13
  bz r0, L4
L3:
  ;@ line examples/c/say.h:17 in 3
  ldi r0, 45
  lip r14, 2
  br keeper_putchar
L4:
  ldi r1, 0
L5:
  ;@ line examples/c/say.h:20 in 3
  ;@ var length 7 r1 in 3
  divu r5, r7, r11
  mul r0, r5, r11
  sub r0, r7, r0
  ;@ line examples/c/say.h:19 in 3
  ldi r13, 48
  or r4, r0, r13
  addi r8, r1, 1
  shl r0, r8, r10
  sar r6, r0, r10
  ;@ var length 7 r8 in 3
  addi r1, r1, 8
  ldi r13, -8
  and r0, r1, r13
  leab r3, r9, r0
  ldi r13, 3
  shl r2, r1, r13
  ld r1, r3, 0, any, keep
  shr r0, r1, r2
  xor r0, r0, r4
  ldi r13, 255
  and r0, r0, r13
  shl r0, r0, r2
  xor r0, r1, r0
  st r3, r0, 0, any, keep
  ;@ var rest 8 r5 in 3
  ltu r0, r7, r11
  bnz r0, L6
L17:
  ;@ var length 7 r6 in 3
  mov r1, r6
  ;@ var length 7 - in 3
  mov r7, r5
  ;@ var rest 8 - in 3
  br L5
L6:
  ;@ line examples/c/say.h:21 in 3
  ;@ var length 7 r8 in 3
  bz r6, L8
L7:
  ;@ line examples/c/say.h:22 in 3
  addi r8, r8, -1
  ;@ var length 7 - in 3
  shl r0, r8, r10
  sar r7, r0, r10
  ;@ var length 7 r8 in 3
  addi r1, r7, 8
  ldi r13, -8
  and r0, r1, r13
  leab r0, r9, r0
  ldi r13, 3
  shl r1, r1, r13
  ld r0, r0, 0, any, keep
  shr r0, r0, r1
  ldi r13, 56
  shl r0, r0, r13
  ldi r13, 56
  sar r0, r0, r13
  lip r14, 2
  br keeper_putchar
  ;@ line examples/c/say.h:21 in 3
  bnz r7, L7
L8:
  ;@ line examples/c/keeper.c:22 in 1
  ;@ var length 7 - in 3
  ld r0, r15, 160, any, keep
  ldi r13, 56
  shl r0, r0, r13
  ldi r13, 56
  sar r1, r0, r13
  ldi r13, 9
  eq r0, r1, r13
  bnz r0, L9
  ldi r13, 11
  eq r0, r1, r13
  bnz r0, L11
  br L12
L9:
  ;@ line examples/c/say.h:8 in 4
  ;@ var text 5 @keeper__str_1 in 4
  lip r12, P_0
  ld r12, r12, 0, any, keep
  ld r3, r12, 0, any, keep
  lip r0, P_2
  ld r0, r0, 0, any, keep
  ldi r1, 31
  ldi r2, 1
  lip r14, 2
  br keeper_fwrite
  ;@ line examples/c/keeper.c:25 in 1
  ld r0, r15, 168, any, keep
  ;@ line examples/c/keeper.c:13 in 5
  ld r0, r0, 0, any, keep
  ldi r13, 44
  shr r0, r0, r13
  ldi r13, 15
  and r1, r0, r13
  ;@ line examples/c/keeper.c:25 in 1
  ld r0, r15, 0, any, keep
  ldi r2, 1
  lip r14, 2
  br keeper_mm_set_register
  ldi r1, 0
L10:
  ;@ var text 5 - in 4
  ld r0, r15, 0, any, keep
  lip r14, 2
  br keeper_mm_resume
  ;@ line examples/c/keeper.c:45
  ;@ var slot 3 - in 1
  ;@ var number 3 - in 3
  br L2
L11:
  ;@ line examples/c/say.h:8 in 6
  ;@ var slot 3 s0 in 1
  ;@ var number 3 s0 in 3
  ;@ var text 5 @keeper__str_2 in 6
  lip r12, P_0
  ld r12, r12, 0, any, keep
  ld r3, r12, 0, any, keep
  lip r0, P_3
  ld r0, r0, 0, any, keep
  ldi r1, 19
  ldi r2, 1
  lip r14, 2
  br keeper_fwrite
  ldi r1, 1
  ;@ line examples/c/keeper.c:45
  br L10
L12:
  ;@ line examples/c/say.h:8 in 7
  ;@ var text 5 - in 6
  ;@ var text 5 @keeper__str_3 in 7
  lip r12, P_0
  ld r12, r12, 0, any, keep
  ld r3, r12, 0, any, keep
  lip r0, P_4
  ld r0, r0, 0, any, keep
  ldi r1, 11
  ldi r2, 1
  lip r14, 2
  br keeper_fwrite
  ;@ line examples/c/keeper.c:34 in 1
  ld r0, r15, 160, any, keep
  ldi r13, 255
  and r5, r0, r13
  ;@ var number 3 r5 in 8
  ;@ var length 7 0 in 8
  ;@ var rest 8 r5 in 8
  ldi r1, 0
L13:
  ;@ line examples/c/say.h:20 in 8
  ;@ var number 3 - in 8
  ;@ var length 7 r1 in 8
  divu r6, r5, r11
  mul r0, r6, r11
  sub r0, r5, r0
  ;@ line examples/c/say.h:19 in 8
  ldi r13, 48
  or r4, r0, r13
  addi r8, r1, 1
  shl r0, r8, r10
  sar r7, r0, r10
  ;@ var length 7 r8 in 8
  addi r1, r1, 8
  ldi r13, -8
  and r0, r1, r13
  ld r12, r15, 8, any, keep
  leab r3, r12, r0
  ldi r13, 3
  shl r2, r1, r13
  ld r1, r3, 0, any, keep
  shr r0, r1, r2
  xor r0, r0, r4
  ldi r13, 255
  and r0, r0, r13
  shl r0, r0, r2
  xor r0, r1, r0
  st r3, r0, 0, any, keep
  ;@ var rest 8 r6 in 8
  ltu r0, r5, r11
  bnz r0, L14
L20:
  ;@ var length 7 r7 in 8
  mov r1, r7
  ;@ var length 7 - in 8
  mov r5, r6
  ;@ var rest 8 - in 8
  br L13
L14:
  ;@ line examples/c/say.h:21 in 8
  ;@ var length 7 r8 in 8
  bz r7, L16
L15:
  ;@ line examples/c/say.h:22 in 8
  addi r8, r8, -1
  ;@ var length 7 - in 8
  shl r0, r8, r10
  sar r7, r0, r10
  ;@ var length 7 r8 in 8
  addi r1, r7, 8
  ldi r13, -8
  and r0, r1, r13
  ld r12, r15, 8, any, keep
  leab r0, r12, r0
  ldi r13, 3
  shl r1, r1, r13
  ld r0, r0, 0, any, keep
  shr r0, r0, r1
  ldi r13, 56
  shl r0, r0, r13
  ldi r13, 56
  sar r0, r0, r13
  lip r14, 2
  br keeper_putchar
  ;@ line examples/c/say.h:21 in 8
  bnz r7, L15
L16:
  ;@ line examples/c/say.h:8 in 9
  ;@ var length 7 - in 8
  ;@ var text 5 @keeper__str_4 in 9
  lip r12, P_0
  ld r12, r12, 0, any, keep
  ld r3, r12, 0, any, keep
  lip r0, P_5
  ld r0, r0, 0, any, keep
  ldi r1, 14
  ldi r2, 1
  lip r14, 2
  br keeper_fwrite
  ;@ line examples/c/keeper.c:36 in 1
  ld r0, r15, 0, any, keep
  ldi r1, 2
  lip r14, 2
  br keeper_mm_resume
  ;@ line examples/c/keeper.c:47
  ;@ var slot 3 - in 1
  ;@ var number 3 - in 3
  ldi r0, 0
  ld r7, r15, 24, any, keep
  ld r8, r15, 32, any, keep
  ld r9, r15, 40, any, keep
  ld r10, r15, 48, any, keep
  ld r11, r15, 56, any, keep
  ld r14, r15, 64, any, keep
  ld r15, r15, 72, any, keep
  jmp r14
keeper_mm_set_register:
  ;@ frame back - caller by 0
  mov r3, r1
  ldi r13, 16
  ltu r1, r3, r13
  bz r1, L41
  ldi r13, 3
  shl r1, r3, r13
  lip r12, L42
  lea r12, r12, r1
  jmp r12
L42:
  br L25
  br L26
  br L27
  br L28
  br L29
  br L30
  br L31
  br L32
  br L33
  br L34
  br L35
  br L36
  br L37
  br L38
  br L39
  br L40
L25:
  wreg r0, r2, 0
  br L41
L26:
  wreg r0, r2, 1
  br L41
L27:
  wreg r0, r2, 2
  br L41
L28:
  wreg r0, r2, 3
  br L41
L29:
  wreg r0, r2, 4
  br L41
L30:
  wreg r0, r2, 5
  br L41
L31:
  wreg r0, r2, 6
  br L41
L32:
  wreg r0, r2, 7
  br L41
L33:
  wreg r0, r2, 8
  br L41
L34:
  wreg r0, r2, 9
  br L41
L35:
  wreg r0, r2, 10
  br L41
L36:
  wreg r0, r2, 11
  br L41
L37:
  wreg r0, r2, 12
  br L41
L38:
  wreg r0, r2, 13
  br L41
L39:
  wreg r0, r2, 14
  br L41
L40:
  wreg r0, r2, 15
L41:
  jmp r14
keeper_mm_resume:
  ;@ frame back - caller by 0
  mov r2, r0
  bz r1, L44
  ldi r13, 1
  eq r0, r1, r13
  bnz r0, L45
  br L46
L44:
  resume r2, retry
  br L47
L45:
  resume r2, skip
  br L47
L46:
  resume r2, kill
L47:
  jmp r14
keeper_putchar:
  ;@ frame back - caller by 0
  out r0
  ldi r13, 255
  and r0, r0, r13
  jmp r14
keeper_fwrite:
  ;@ frame back - caller by 24
  leai r15, r15, -24
  st r15, r7, 0, any, keep
  st r15, r8, 8, any, keep
  st r15, r9, 16, any, keep
  mov r5, r0
  mov r9, r2
  mov r0, r3
  ldi r7, 3
  ldi r6, 0
  ldi r8, 7
  ldi r3, 56
  mul r4, r9, r1
  bz r4, L50
L52:
  mov r2, r6
  br L51
L50:
  mov r0, r9
  ld r7, r15, 0, any, keep
  ld r8, r15, 8, any, keep
  ld r9, r15, 16, any, keep
  leai r15, r15, 24
  jmp r14
L51:
  lea r1, r5, r2
  and r0, r1, r8
  sub r0, r6, r0
  lea r0, r1, r0
  shl r1, r1, r7
  ld r0, r0, 0, any, keep
  shr r0, r0, r1
  shl r0, r0, r3
  sar r0, r0, r3
  out r0
  addi r2, r2, 1
  eq r0, r2, r4
  bnz r0, L50
  br L51
keeper___mm_event:
  mov r12, r0
  evt r0
  st r12, r0, 0, any, keep
  st r12, r1, 8, any, keep
  st r12, r2, 16, any, keep
  st r12, r3, 24, any, keep
  jmp r14
keeper_mm_event:
  ;@ frame back 0 caller by 8
  leai r15, r15, -8
  st r15, r14, 0, any, keep
  lip r14, 2
  br keeper___mm_event
  ld r14, r15, 0, any, keep
  leai r15, r15, 8
  jmp r14
P_0: .ptr rw keeper_stdout+0
P_1: .ptr ro keeper__str+2
P_2: .ptr ro keeper__str_1+0
P_3: .ptr ro keeper__str_2+12
P_4: .ptr ro keeper__str_3+4
P_5: .ptr ro keeper__str_4+1
.segment keeper_stdout 3
  ;@ global stdout 8 at 0
  .ptr rw keeper_files+8
.segment keeper__str 3
  ;@ unnamed at 2 constant
  .int 0x20746f6c730000
.segment keeper__str_3 4
  ;@ unnamed at 4 constant
  .int 0x7361682000000000
  .int 0x20746c75616620
.segment keeper__str_4 4
  ;@ unnamed at 1 constant
  .int 0x7369207469203a00
  .int 0xa6465646e6520
.segment keeper__str_1 5
  ;@ unnamed at 0 constant
  .int 0x7365646976696420
  .int 0x6f72657a20796220
  .int 0x692031207962203a
  .int 0xa64616574736e
.segment keeper__str_2 5
  ;@ unnamed at 12 constant
  .fill 1
  .int 0x6c61632000000000
  .int 0x67207469203a736c
  .int 0xa6e6f2073656f
.segment keeper_files 4
  ;@ global files 12 at 4
  .fill 1
  .int 0x200000001
.segment keeper_stack 16
.thread 1 1 none xu start
.reg 15 ptr rw keeper_stack+65472
;@ type 1 pointer 2
;@ type 2 struct 32 mm_event what:0:3 at:64:4 address:128:4 data:192:4
;@ type 3 base i8 long
;@ type 4 pointer 0
;@ type 5 pointer 6
;@ type 6 base i1 char
;@ type 7 base i4 int
;@ type 8 base u8 unsigned long
;@ type 9 array 20 6
