.segment ann_text 11
start:
  ldi r0, 1
  ldi r1, 0
  lip r14, 2
  br ann_main
  halt
ann_main:
  ;@ function main at examples/c/ann.c:7
  ;@ inlined 1 say_number at examples/c/ann.c:11
  ;@ frame back 40 caller at 48
  ;@ local digits 20 at 72 log 5 type 6 in 1
  ldi r13, 31
  and r13, r15, r13
  ldi r12, -96
  sub r13, r12, r13
  lea r12, r15, r13
  st r12, r15, 48, any, keep
  mov r15, r12
  st r15, r7, 0, any, keep
  st r15, r8, 8, any, keep
  st r15, r9, 16, any, keep
  st r15, r10, 24, any, keep
  st r15, r11, 32, any, keep
  st r15, r14, 40, any, keep
  leai r11, r15, 72
  ldi r14, 5
  subseg r11, r11, r14
  ldi r9, 10
  ldi r10, 32
  ;@ line examples/c/ann.c:9
  lip r14, 2
  br ann_to_open_drawer_ann
  mov r7, r0
  ;@ line examples/c/ann.c:10
  ;@ var key 1 r7
  mov r0, r7
  ldi r1, 1234
  lip r14, 2
  br ann_to_put_in_ann
  ;@ line examples/c/ann.c:11
  mov r0, r7
  lip r14, 2
  br ann_to_look_in_ann
  ;@ line examples/c/say.h:15 in 1
  ;@ var key 1 -
  ;@ var number 2 r0 in 1
  ;@ var length 3 0 in 1
  ldi r12, 0
  sub r2, r12, r0
  ldi r13, 0
  lts r1, r0, r13
  mov r7, r2
  bnz r1, L18
  mov r7, r0
L18:
  ;@ line examples/c/say.h:16 in 1
  ;@ var rest 4 r7 in 1
  ldi r13, 0
  lts r0, r0, r13
  ;@ var number 2 - in 1
  bz r0, L3
L2:
  ;@ line examples/c/say.h:17 in 1
  ldi r0, 45
  lip r14, 2
  br ann_putchar
L3:
  ldi r1, 0
L4:
  ;@ line examples/c/say.h:20 in 1
  ;@ var length 3 r1 in 1
  divu r5, r7, r9
  mul r0, r5, r9
  sub r0, r7, r0
  ;@ line examples/c/say.h:19 in 1
  ldi r13, 48
  or r4, r0, r13
  addi r8, r1, 1
  shl r0, r8, r10
  sar r6, r0, r10
  ;@ var length 3 r8 in 1
  addi r1, r1, 8
  ldi r13, -8
  and r0, r1, r13
  leab r3, r11, r0
  ldi r13, 3
  shl r2, r1, r13
  ld r1, r3, 0, any, keep
  shr r0, r1, r2
  xor r0, r0, r4
  ldi r13, 255
  and r0, r0, r13
  shl r0, r0, r2
  xor r0, r1, r0
  st r3, r0, 0, any, keep
  ;@ var rest 4 r5 in 1
  ltu r0, r7, r9
  bnz r0, L5
L15:
  ;@ var length 3 r6 in 1
  mov r1, r6
  ;@ var length 3 - in 1
  mov r7, r5
  ;@ var rest 4 - in 1
  br L4
L5:
  ;@ line examples/c/say.h:21 in 1
  ;@ var length 3 r8 in 1
  bz r6, L7
L6:
  ;@ line examples/c/say.h:22 in 1
  addi r8, r8, -1
  ;@ var length 3 - in 1
  shl r0, r8, r10
  sar r7, r0, r10
  ;@ var length 3 r8 in 1
  addi r1, r7, 8
  ldi r13, -8
  and r0, r1, r13
  leab r0, r11, r0
  ldi r13, 3
  shl r1, r1, r13
  ld r0, r0, 0, any, keep
  shr r0, r0, r1
  ldi r13, 56
  shl r0, r0, r13
  ldi r13, 56
  sar r0, r0, r13
  lip r14, 2
  br ann_putchar
  ;@ line examples/c/say.h:21 in 1
  bnz r7, L6
L7:
  ;@ line examples/c/ann.c:12
  ;@ var length 3 - in 1
  ldi r0, 0
  ld r7, r15, 0, any, keep
  ld r8, r15, 8, any, keep
  ld r9, r15, 16, any, keep
  ld r10, r15, 24, any, keep
  ld r11, r15, 32, any, keep
  ld r14, r15, 40, any, keep
  ld r15, r15, 48, any, keep
  jmp r14
ann_putchar:
  ;@ frame back - caller by 0
  out r0
  ldi r13, 255
  and r0, r0, r13
  jmp r14
ann_to_open_drawer_ann:
  ;@ frame back - caller by 0
  lip r13, L8
  ld r12, r13, 0, any, keep
  br L10
ann_from_open_drawer_ann:
  lip r13, L8
  br L9
ann_to_put_in_ann:
  ;@ frame back - caller by 0
  lip r13, L11
  ld r12, r13, 0, any, keep
  br L12
ann_from_put_in_ann:
  lip r13, L11
  br L9
ann_to_look_in_ann:
  ;@ frame back - caller by 0
  lip r13, L13
  ld r12, r13, 0, any, keep
  br L14
ann_from_look_in_ann:
  lip r13, L13
  br L9
ann_leave:
  ;@ frame back 40 caller by 56
L10:
  ldi r0, 0
L14:
  ldi r1, 0
L12:
  ldi r2, 0
  ldi r3, 0
  ldi r4, 0
  ldi r5, 0
  ldi r6, 0
  leai r15, r15, -56
  st r15, r7, 0, any, keep
  st r15, r8, 8, any, keep
  st r15, r9, 16, any, keep
  st r15, r10, 24, any, keep
  st r15, r11, 32, any, keep
  st r15, r14, 40, any, keep
  ld r7, r13, 16, any, keep
  self r8
  ldi r9, 3
  shl r8, r8, r9
  lea r7, r7, r8
  ld r8, r7, 0, any, keep
  st r15, r8, 48, any, keep
  st r7, r15, 0, any, keep
  ld r14, r13, 8, any, keep
  ldi r7, 0
  ldi r8, 0
  ldi r9, 0
  ldi r10, 0
  ldi r11, 0
  ldi r13, 0
  ldi r15, 0
  jmp r12
L9:
  ld r13, r13, 16, any, keep
  self r12
  ldi r14, 3
  shl r12, r12, r14
  lea r13, r13, r12
  ld r15, r13, 0, any, keep
  isptr r12, r15
  bz r12, L20
  ld r12, r15, 48, any, keep
  st r13, r12, 0, any, keep
  ld r7, r15, 0, any, keep
  ld r8, r15, 8, any, keep
  ld r9, r15, 16, any, keep
  ld r10, r15, 24, any, keep
  ld r11, r15, 32, any, keep
  ld r14, r15, 40, any, keep
  leai r15, r15, 56
  jmp r14
L20:
  halt
L8:
  .ptr eu door_open_drawer_ann+16
  .ptr eu ann_from_open_drawer_ann
  .ptr rw ann_calls+0
L11:
  .ptr eu door_put_in_ann+16
  .ptr eu ann_from_put_in_ann
  .ptr rw ann_calls+128
L13:
  .ptr eu door_look_in_ann+16
  .ptr eu ann_from_look_in_ann
  .ptr rw ann_calls+256
.segment ann_calls 9
.segment ann_stack 16
.thread 0 0 none xu start
.reg 15 ptr rw ann_stack+65472
;@ type 1 pointer 0
;@ type 2 base i8 long
;@ type 3 base i4 int
;@ type 4 base u8 unsigned long
;@ type 5 base i1 char
;@ type 6 array 20 5
