.segment store_text 11
store_mm_door_look_in:
  ;@ function look_in at examples/c/store.c:33
  ;@ inlined 1 drawer_of at examples/c/store.c:35
  ;@ frame back 48 caller by 56
  leai r15, r15, -56
  st r15, r7, 8, any, keep
  st r15, r8, 16, any, keep
  st r15, r9, 24, any, keep
  st r15, r10, 32, any, keep
  st r15, r11, 40, any, keep
  st r15, r14, 48, any, keep
  st r15, r0, 0, any, keep
  lip r10, P_0
  ld r10, r10, 0, any, keep
  ldi r9, 0
  lip r11, P_1
  ld r11, r11, 0, any, keep
  ;@ line examples/c/store.c:13 in 1
  ;@ var key 1 s0
  ;@ var key 1 s0 in 1
  ;@ var i 2 0 in 1
  ld r0, r10, -4, any, keep
  ldi r13, 32
  sar r0, r0, r13
  lts r0, r9, r0
  bnz r0, L7
L8:
  ;@ var key 1 -
  ;@ var key 1 - in 1
  mov r8, r9
  mov r0, r9
  br L4
L7:
  ;@ var key 1 s0
  ;@ var key 1 s0 in 1
  mov r7, r9
  br L3
L2:
  ;@ var i 2 r7 in 1
  ld r0, r10, -4, any, keep
  ldi r13, 32
  sar r0, r0, r13
  lts r0, r7, r0
  bnz r0, L3
L11:
  ;@ var key 1 -
  ;@ var key 1 - in 1
  ;@ var i 2 - in 1
  mov r8, r9
  mov r0, r9
  br L4
L3:
  ;@ line examples/c/store.c:14 in 1
  ;@ var key 1 s0
  ;@ var key 1 s0 in 1
  ;@ var i 2 r7 in 1
  ldi r13, 3
  shl r8, r7, r13
  add r2, r11, r8
  isptr r0, r11
  bz r0, L13
  ldi r0, 54
  shr r0, r11, r0
  ldi r1, 320
  ltu r1, r0, r1
  bz r1, L13
  xor r1, r2, r11
  shr r1, r1, r0
  bnz r1, L13
  lea r2, r11, r8
L13:
  mov r0, r2
  lip r14, 2
  br store_mm_key
  ld r12, r15, 0, any, keep
  eqw r0, r12, r0
  ;@ line examples/c/store.c:13 in 1
  addi r7, r7, 1
  ;@ line examples/c/store.c:14 in 1
  bz r0, L2
L9:
  ;@ var key 1 -
  ;@ var key 1 - in 1
  ;@ var i 2 - in 1
  mov r0, r11
L4:
  ;@ line examples/c/store.c:36
  ;@ var drawer 3 r0+r8
  add r1, r0, r8
  bnz r1, L5
L12:
  ;@ var drawer 3 -
  ldi r0, -1
  br L6
L5:
  ;@ var drawer 3 r0+r8
  lea r0, r0, r8
  ;@ var drawer 3 -
  ld r0, r0, 0, any, keep
L6:
  ldi r1, 0
  ldi r2, 0
  ldi r3, 0
  ldi r4, 0
  ldi r5, 0
  ldi r6, 0
  ld r7, r15, 8, any, keep
  ld r8, r15, 16, any, keep
  ld r9, r15, 24, any, keep
  ld r10, r15, 32, any, keep
  ld r11, r15, 40, any, keep
  ld r14, r15, 48, any, keep
  ldi r12, 0
  st r15, r12, 0, any, keep
  st r15, r12, 8, any, keep
  st r15, r12, 16, any, keep
  st r15, r12, 24, any, keep
  st r15, r12, 32, any, keep
  st r15, r12, 40, any, keep
  st r15, r12, 48, any, keep
  leai r15, r15, 56
  jmp r14
store_mm_key:
  ;@ frame back - caller by 0
  ldi r13, 7
  restrict r0, r0, r13
  jmp r14
store_mm_door_put_in:
  ;@ function put_in at examples/c/store.c:24
  ;@ inlined 1 drawer_of at examples/c/store.c:26
  ;@ frame back 56 caller by 64
  leai r15, r15, -64
  st r15, r7, 16, any, keep
  st r15, r8, 24, any, keep
  st r15, r9, 32, any, keep
  st r15, r10, 40, any, keep
  st r15, r11, 48, any, keep
  st r15, r14, 56, any, keep
  st r15, r0, 0, any, keep
  st r15, r1, 8, any, keep
  lip r9, P_0
  ld r9, r9, 0, any, keep
  ldi r11, 0
  lip r10, P_1
  ld r10, r10, 0, any, keep
  ;@ line examples/c/store.c:13 in 1
  ;@ var key 1 s0
  ;@ var value 4 s8
  ;@ var key 1 s0 in 1
  ;@ var i 2 0 in 1
  ld r0, r9, -4, any, keep
  ldi r13, 32
  sar r0, r0, r13
  lts r0, r11, r0
  bnz r0, L21
L22:
  ;@ var key 1 -
  ;@ var key 1 - in 1
  mov r8, r11
  mov r0, r11
  br L18
L21:
  ;@ var key 1 s0
  ;@ var key 1 s0 in 1
  mov r7, r11
  br L17
L16:
  ;@ var i 2 r7 in 1
  ld r0, r9, -4, any, keep
  ldi r13, 32
  sar r0, r0, r13
  lts r0, r7, r0
  bnz r0, L17
L25:
  ;@ var key 1 -
  ;@ var key 1 - in 1
  ;@ var i 2 - in 1
  mov r8, r11
  mov r0, r11
  br L18
L17:
  ;@ line examples/c/store.c:14 in 1
  ;@ var key 1 s0
  ;@ var key 1 s0 in 1
  ;@ var i 2 r7 in 1
  ldi r13, 3
  shl r8, r7, r13
  add r2, r10, r8
  isptr r0, r10
  bz r0, L27
  ldi r0, 54
  shr r0, r10, r0
  ldi r1, 320
  ltu r1, r0, r1
  bz r1, L27
  xor r1, r2, r10
  shr r1, r1, r0
  bnz r1, L27
  lea r2, r10, r8
L27:
  mov r0, r2
  lip r14, 2
  br store_mm_key
  ld r12, r15, 0, any, keep
  eqw r0, r12, r0
  ;@ line examples/c/store.c:13 in 1
  addi r7, r7, 1
  ;@ line examples/c/store.c:14 in 1
  bz r0, L16
L23:
  ;@ var key 1 -
  ;@ var key 1 - in 1
  ;@ var i 2 - in 1
  mov r0, r10
L18:
  ;@ line examples/c/store.c:27
  ;@ var drawer 3 r0+r8
  add r1, r0, r8
  bnz r1, L19
L26:
  ;@ var value 4 -
  ;@ var drawer 3 -
  ldi r0, -1
  br L20
L19:
  ;@ line examples/c/store.c:29
  ;@ var value 4 s8
  ;@ var drawer 3 r0+r8
  ld r12, r15, 8, any, keep
  addi r1, r12, 0
  ;@ var value 4 -
  lea r0, r0, r8
  ;@ var drawer 3 -
  st r0, r1, 0, any, keep
  mov r0, r11
L20:
  ;@ line examples/c/store.c:31
  ldi r1, 0
  ldi r2, 0
  ldi r3, 0
  ldi r4, 0
  ldi r5, 0
  ldi r6, 0
  ld r7, r15, 16, any, keep
  ld r8, r15, 24, any, keep
  ld r9, r15, 32, any, keep
  ld r10, r15, 40, any, keep
  ld r11, r15, 48, any, keep
  ld r14, r15, 56, any, keep
  ldi r12, 0
  st r15, r12, 0, any, keep
  st r15, r12, 8, any, keep
  st r15, r12, 16, any, keep
  st r15, r12, 24, any, keep
  st r15, r12, 32, any, keep
  st r15, r12, 40, any, keep
  st r15, r12, 48, any, keep
  st r15, r12, 56, any, keep
  leai r15, r15, 64
  jmp r14
store_mm_door_open_drawer:
  ;@ function open_drawer at examples/c/store.c:19
  ;@ frame back 0 caller by 8
  leai r15, r15, -8
  st r15, r14, 0, any, keep
  lip r4, P_0
  ld r4, r4, 0, any, keep
  ldi r5, 32
  ;@ line examples/c/store.c:21
  ld r0, r4, -4, any, keep
  sar r3, r0, r5
  ldi r13, 8
  lts r0, r3, r13
  bnz r0, L29
L31:
  ldi r0, 0
  br L30
L29:
  addi r2, r3, 1
  ld r0, r4, -4, any, keep
  shl r0, r0, r5
  shr r1, r0, r5
  shl r0, r2, r5
  or r0, r1, r0
  st r4, r0, -4, any, keep
  ldi r13, 3
  shl r3, r3, r13
  lip r12, P_1
  ld r12, r12, 0, any, keep
  add r2, r12, r3
  isptr r0, r12
  bz r0, L32
  ldi r0, 54
  shr r0, r12, r0
  ldi r1, 320
  ltu r1, r0, r1
  bz r1, L32
  xor r1, r2, r12
  shr r1, r1, r0
  bnz r1, L32
  lea r2, r12, r3
L32:
  mov r0, r2
  lip r14, 2
  br store_mm_key
L30:
  ldi r1, 0
  ldi r2, 0
  ldi r3, 0
  ldi r4, 0
  ldi r5, 0
  ldi r6, 0
  ld r14, r15, 0, any, keep
  ldi r12, 0
  st r15, r12, 0, any, keep
  leai r15, r15, 8
  jmp r14
P_0: .ptr rw store_used+4
P_1: .ptr rw store_drawers+0
.segment store_used 3
  ;@ global used 4 at 4 type 2
.segment store_drawers 6
  ;@ global drawers 64 at 0 type 5
.segment store_turn 3
  .ptr rw store_door_stack+65472
.segment door_open_drawer 9
  .ptr rw store_turn
  .ptr xu store_mm_door_open_drawer
  isptr r12, r14
  bz r12, 30
  ldi r12, 60
  shr r12, r14, r12
  addi r12, r12, -3
  bz r12, 3
  addi r12, r12, -2
  bnz r12, 24
  lip r12, -10
  ld r6, r12, 0, any, keep
  ld r13, r6, 0, full, empty
  st r13, r14, 0, any, keep
  st r13, r6, 8, any, keep
  mov r15, r13
  ld r12, r12, 8, any, keep
  jal r14, r12
  ld r6, r15, 8, any, keep
  ld r14, r15, 0, any, keep
  ldi r12, 0
  st r15, r12, 0, any, keep
  st r15, r12, 8, any, keep
  st r6, r15, 0, empty, full
  ldi r1, 0
  ldi r2, 0
  ldi r3, 0
  ldi r4, 0
  ldi r5, 0
  ldi r6, 0
  ldi r13, 0
  ldi r15, 0
  jmp r14
  halt
.segment door_put_in 9
  .ptr rw store_turn
  .ptr xu store_mm_door_put_in
  isptr r12, r14
  bz r12, 30
  ldi r12, 60
  shr r12, r14, r12
  addi r12, r12, -3
  bz r12, 3
  addi r12, r12, -2
  bnz r12, 24
  lip r12, -10
  ld r6, r12, 0, any, keep
  ld r13, r6, 0, full, empty
  st r13, r14, 0, any, keep
  st r13, r6, 8, any, keep
  mov r15, r13
  ld r12, r12, 8, any, keep
  jal r14, r12
  ld r6, r15, 8, any, keep
  ld r14, r15, 0, any, keep
  ldi r12, 0
  st r15, r12, 0, any, keep
  st r15, r12, 8, any, keep
  st r6, r15, 0, empty, full
  ldi r1, 0
  ldi r2, 0
  ldi r3, 0
  ldi r4, 0
  ldi r5, 0
  ldi r6, 0
  ldi r13, 0
  ldi r15, 0
  jmp r14
  halt
.segment door_look_in 9
  .ptr rw store_turn
  .ptr xu store_mm_door_look_in
  isptr r12, r14
  bz r12, 30
  ldi r12, 60
  shr r12, r14, r12
  addi r12, r12, -3
  bz r12, 3
  addi r12, r12, -2
  bnz r12, 24
  lip r12, -10
  ld r6, r12, 0, any, keep
  ld r13, r6, 0, full, empty
  st r13, r14, 0, any, keep
  st r13, r6, 8, any, keep
  mov r15, r13
  ld r12, r12, 8, any, keep
  jal r14, r12
  ld r6, r15, 8, any, keep
  ld r14, r15, 0, any, keep
  ldi r12, 0
  st r15, r12, 0, any, keep
  st r15, r12, 8, any, keep
  st r6, r15, 0, empty, full
  ldi r1, 0
  ldi r2, 0
  ldi r3, 0
  ldi r4, 0
  ldi r5, 0
  ldi r6, 0
  ldi r13, 0
  ldi r15, 0
  jmp r14
  halt
.segment store_door_stack 16
;@ type 1 pointer 0
;@ type 2 base i4 int
;@ type 3 pointer 4
;@ type 4 base i8 long
;@ type 5 array 8 4
