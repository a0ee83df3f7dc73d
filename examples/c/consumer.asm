.segment consumer_text 10
start:
  ldi r0, 1
  ldi r1, 0
  lip r14, 2
  br consumer_main
  halt
consumer_main:
  ;@ function main at examples/c/consumer.c:7
  ;@ frame back 40 caller by 48
  leai r15, r15, -48
  st r15, r7, 0, any, keep
  st r15, r8, 8, any, keep
  st r15, r9, 16, any, keep
  st r15, r10, 24, any, keep
  st r15, r11, 32, any, keep
  st r15, r14, 40, any, keep
  lip r9, P_0
  ld r9, r9, 0, any, keep
  ldi r8, 32
  ldi r10, 63
  ldi r11, 4
  ;@ line examples/c/consumer.c:10
  ;@ var i 1 0
  mov r0, r9
  lip r14, 2
  br consumer_mm_take
  ;@ line examples/c/consumer.c:11
  ;@ var letter 2 r0
  bz r0, L3
L4:
  ;@ var letter 2 -
  ldi r7, 0
L2:
  ;@ line examples/c/consumer.c:13
  ;@ var i 1 r7
  shl r0, r0, r8
  sar r0, r0, r8
  lip r14, 2
  br consumer_putchar
  ;@ line examples/c/consumer.c:9
  addi r7, r7, 1
  ;@ var i 1 -
  shl r0, r7, r8
  sar r0, r0, r8
  ;@ line examples/c/consumer.c:10
  ;@ var i 1 r7
  sar r1, r0, r10
  xor r0, r0, r1
  sub r0, r0, r1
  remu r0, r0, r11
  xor r0, r0, r1
  sub r0, r0, r1
  ldi r13, 3
  shl r3, r0, r13
  add r2, r9, r3
  isptr r0, r9
  bz r0, L6
  ldi r0, 54
  shr r0, r9, r0
  ldi r1, 320
  ltu r1, r0, r1
  bz r1, L6
  xor r1, r2, r9
  shr r1, r1, r0
  bnz r1, L6
  lea r2, r9, r3
L6:
  mov r0, r2
  lip r14, 2
  br consumer_mm_take
  ;@ line examples/c/consumer.c:11
  ;@ var letter 2 r0
  bnz r0, L2
L3:
  ;@ line examples/c/consumer.c:15
  ;@ var i 1 -
  ;@ var letter 2 -
  ldi r0, 0
  ld r7, r15, 0, any, keep
  ld r8, r15, 8, any, keep
  ld r9, r15, 16, any, keep
  ld r10, r15, 24, any, keep
  ld r11, r15, 32, any, keep
  ld r14, r15, 40, any, keep
  leai r15, r15, 48
  jmp r14
consumer_putchar:
  ;@ frame back - caller by 0
  out r0
  ldi r13, 255
  and r0, r0, r13
  jmp r14
consumer_mm_take:
  ;@ frame back - caller by 0
  ld r0, r0, 0, full, empty
  jmp r14
P_0: .ptr rw ring+0
.segment consumer_stack 16
.thread 1 1 none xu start
.reg 15 ptr rw consumer_stack+65472
;@ type 1 base i4 int
;@ type 2 base i8 long
