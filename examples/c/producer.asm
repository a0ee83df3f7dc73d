.segment producer_text 10
start:
  ldi r0, 1
  ldi r1, 0
  lip r14, 2
  br producer_main
  halt
producer_main:
  ;@ function main at examples/c/producer.c:8
  ;@ frame back 40 caller by 48
  leai r15, r15, -48
  st r15, r7, 0, any, keep
  st r15, r8, 8, any, keep
  st r15, r9, 16, any, keep
  st r15, r10, 24, any, keep
  st r15, r11, 32, any, keep
  st r15, r14, 40, any, keep
  ldi r8, 3
  lip r10, P_0
  ld r10, r10, 0, any, keep
  lip r11, P_1
  ld r11, r11, 0, any, keep
  ldi r9, 56
  ;@ var i 1 0
  ldi r7, 0
L2:
  ;@ line examples/c/producer.c:11
  ;@ var i 1 r7
  and r0, r7, r8
  ;@ line examples/c/producer.c:12
  shl r4, r0, r8
  addi r1, r7, 9
  ldi r13, -8
  and r0, r1, r13
  leab r0, r11, r0
  shl r1, r1, r8
  ld r0, r0, 0, any, keep
  shr r0, r0, r1
  shl r0, r0, r9
  sar r3, r0, r9
  add r2, r10, r4
  isptr r0, r10
  bz r0, L5
  ldi r0, 54
  shr r0, r10, r0
  ldi r1, 320
  ltu r1, r0, r1
  bz r1, L5
  xor r1, r2, r10
  shr r1, r1, r0
  bnz r1, L5
  lea r2, r10, r4
L5:
  mov r0, r2
  mov r1, r3
  lip r14, 2
  br producer_mm_put
  ;@ line examples/c/producer.c:11
  addi r1, r7, 1
  ;@ line examples/c/producer.c:13
  ;@ var i 1 r1
  ldi r13, 22
  eq r0, r7, r13
  bnz r0, L3
L4:
  mov r7, r1
  ;@ var i 1 -
  br L2
L3:
  ;@ line examples/c/producer.c:14
  ldi r0, 0
  ld r7, r15, 0, any, keep
  ld r8, r15, 8, any, keep
  ld r9, r15, 16, any, keep
  ld r10, r15, 24, any, keep
  ld r11, r15, 32, any, keep
  ld r14, r15, 40, any, keep
  leai r15, r15, 48
  jmp r14
producer_mm_put:
  ;@ frame back - caller by 0
  st r0, r1, 0, empty, full
  jmp r14
P_0: .ptr rw ring+0
P_1: .ptr ro producer__str+9
.segment ring 5
  ;@ global ring 32 at 0 type 3
  .empty .int 0
  .empty .int 0
  .empty .int 0
  .empty .int 0
.segment producer__str 5
  ;@ unnamed at 9 constant
  .fill 1
  .int 0x6465647261756700
  .int 0x7265746e696f7020
  .int 0xa43206e692073
.segment producer_stack 16
.thread 0 0 none xu start
.reg 15 ptr rw producer_stack+65472
;@ type 1 base i4 int
;@ type 2 base i8 long
;@ type 3 array 4 2
