.segment worker_text 11
start:
  ldi r0, 1
  ldi r1, 0
  lip r14, 2
  br worker_main
  halt
worker_main:
  ;@ function main at examples/c/worker.c:9
  ;@ inlined 1 say_number at examples/c/worker.c:13
  ;@ inlined 2 say at examples/c/worker.c:14
  ;@ inlined 3 say at examples/c/worker.c:17
  ;@ frame back 40 caller at 48
  ;@ local digits 20 at 104 log 5 type 6 in 1
  ;@ local nothing 8 at 56 log 3 type 3
  ;@ local at 8 at 64 log 3 type 1
  ldi r13, 31
  and r13, r15, r13
  ldi r12, -128
  sub r13, r12, r13
  lea r12, r15, r13
  st r12, r15, 48, any, keep
  mov r15, r12
  st r15, r7, 0, any, keep
  st r15, r8, 8, any, keep
  st r15, r9, 16, any, keep
  st r15, r10, 24, any, keep
  st r15, r11, 32, any, keep
  st r15, r14, 40, any, keep
  leai r9, r15, 104
  ldi r14, 5
  subseg r9, r9, r14
  ldi r1, 0
  ldi r11, 10
  ldi r10, 32
  ;@ line examples/c/worker.c:11
  st r15, r1, 56, any, keep
  ;@ line examples/c/worker.c:12
  ldi r12, 4
  st r15, r12, 64, any, keep
  ;@ line examples/c/worker.c:13
  ld r0, r15, 56, any, keep
  ldi r12, 100
  divu r5, r12, r0
L2:
  ;@ line examples/c/say.h:20 in 1
  ;@ var rest 3 r5 in 1
  ;@ var length 2 r1 in 1
  divu r6, r5, r11
  mul r0, r6, r11
  sub r0, r5, r0
  ;@ line examples/c/say.h:19 in 1
  ldi r13, 48
  or r4, r0, r13
  addi r8, r1, 1
  shl r0, r8, r10
  sar r7, r0, r10
  ;@ var length 2 r8 in 1
  addi r1, r1, 8
  ldi r13, -8
  and r0, r1, r13
  leab r3, r9, r0
  ldi r13, 3
  shl r2, r1, r13
  ld r1, r3, 0, any, keep
  shr r0, r1, r2
  xor r0, r0, r4
  ldi r13, 255
  and r0, r0, r13
  shl r0, r0, r2
  xor r0, r1, r0
  st r3, r0, 0, any, keep
  ;@ var rest 3 r6 in 1
  ltu r0, r5, r11
  bnz r0, L3
L6:
  ;@ var length 2 r7 in 1
  mov r1, r7
  ;@ var length 2 - in 1
  mov r5, r6
  ;@ var rest 3 - in 1
  br L2
L3:
  ;@ line examples/c/say.h:21 in 1
  ;@ var length 2 r8 in 1
  bz r7, L5
L4:
  ;@ line examples/c/say.h:22 in 1
  addi r8, r8, -1
  ;@ var length 2 - in 1
  shl r0, r8, r10
  sar r7, r0, r10
  ;@ var length 2 r8 in 1
  addi r1, r7, 8
  ldi r13, -8
  and r0, r1, r13
  leab r0, r9, r0
  ldi r13, 3
  shl r1, r1, r13
  ld r0, r0, 0, any, keep
  shr r0, r0, r1
  ldi r13, 56
  shl r0, r0, r13
  ldi r13, 56
  sar r0, r0, r13
  lip r14, 2
  br worker_putchar
  ;@ line examples/c/say.h:21 in 1
  bnz r7, L4
L5:
  ;@ line examples/c/say.h:8 in 2
  ;@ var length 2 - in 1
  lip r12, P_0
  ld r12, r12, 0, any, keep
  ld r1, r12, 0, any, keep
  mov r0, r11
  lip r14, 2
  br worker_fputc
  ;@ line examples/c/worker.c:15
  trap 7
  ;@ line examples/c/worker.c:16
  ld r0, r15, 64, any, keep
  ldi r13, 3
  shl r0, r0, r13
  lip r12, P_1
  ld r12, r12, 0, any, keep
  lea r0, r12, r0
  ldi r13, 50
  st r0, r13, 0, any, keep
  ;@ line examples/c/say.h:8 in 3
  ;@ var text 4 @worker__str_1 in 3
  lip r12, P_0
  ld r12, r12, 0, any, keep
  ld r3, r12, 0, any, keep
  lip r0, P_2
  ld r0, r0, 0, any, keep
  ldi r1, 11
  ldi r2, 1
  lip r14, 2
  br worker_fwrite
  ;@ line examples/c/worker.c:18
  lip r12, P_1
  ld r12, r12, 0, any, keep
  ld r0, r12, 0, any, keep
  shl r0, r0, r10
  sar r0, r0, r10
  ld r7, r15, 0, any, keep
  ld r8, r15, 8, any, keep
  ld r9, r15, 16, any, keep
  ld r10, r15, 24, any, keep
  ld r11, r15, 32, any, keep
  ld r14, r15, 40, any, keep
  ld r15, r15, 48, any, keep
  jmp r14
worker_fwrite:
  ;@ frame back - caller by 24
  leai r15, r15, -24
  st r15, r7, 0, any, keep
  st r15, r8, 8, any, keep
  st r15, r9, 16, any, keep
  mov r5, r0
  mov r9, r2
  mov r0, r3
  ldi r7, 3
  ldi r6, 0
  ldi r8, 7
  ldi r3, 56
  mul r4, r9, r1
  bz r4, L10
L12:
  mov r2, r6
  br L11
L10:
  mov r0, r9
  ld r7, r15, 0, any, keep
  ld r8, r15, 8, any, keep
  ld r9, r15, 16, any, keep
  leai r15, r15, 24
  jmp r14
L11:
  lea r1, r5, r2
  and r0, r1, r8
  sub r0, r6, r0
  lea r0, r1, r0
  shl r1, r1, r7
  ld r0, r0, 0, any, keep
  shr r0, r0, r1
  shl r0, r0, r3
  sar r0, r0, r3
  out r0
  addi r2, r2, 1
  eq r0, r2, r4
  bnz r0, L10
  br L11
worker_fputc:
  ;@ frame back - caller by 0
  out r0
  ldi r13, 255
  and r0, r0, r13
  jmp r14
worker_putchar:
  ;@ frame back - caller by 0
  out r0
  ldi r13, 255
  and r0, r0, r13
  jmp r14
P_0: .ptr rw worker_stdout+0
P_1: .ptr rw worker_table+0
P_2: .ptr ro worker__str_1+4
.segment worker_stdout 3
  ;@ global stdout 8 at 0
  .ptr rw worker_files+8
.segment worker_table 5
  ;@ global table 32 at 0 type 7
  .int 0xa
  .int 0x14
  .int 0x1e
  .int 0x28
.segment worker__str_1 4
  ;@ unnamed at 4 constant
  .int 0x6576656e00000000
  .int 0xa646961732072
.segment worker_files 4
  ;@ global files 12 at 4
  .fill 1
  .int 0x200000001
.segment worker_stack 16
.thread 0 0 1 xu start
.reg 15 ptr rw worker_stack+65472
;@ type 1 base i8 long
;@ type 2 base i4 int
;@ type 3 base u8 unsigned long
;@ type 4 pointer 5
;@ type 5 base i1 char
;@ type 6 array 20 5
;@ type 7 array 4 1
