.segment pool_text 11
pool_mm_door_give_back:
  ;@ function give_back at examples/c/pool.c:39
  ;@ inlined 1 is_his at examples/c/pool.c:41
  ;@ frame back - caller by 0
  mov r3, r0
  lip r5, P_0
  ld r5, r5, 0, any, keep
  lip r2, P_1
  ld r2, r2, 0, any, keep
  ldi r4, 0
  ldi r6, -1
  ;@ line examples/c/pool.c:13 in 1
  ;@ var block 1 r3
  ;@ var block 1 r3 in 1
  ldi r13, 2
  ltu r0, r3, r13
  bnz r0, L2
L5:
  ;@ var block 1 -
  ;@ var block 1 - in 1
  mov r0, r6
  br L4
L2:
  ;@ var block 1 r3
  ;@ var block 1 r3 in 1
  ldi r13, 3
  shl r0, r3, r13
  lea r0, r5, r0
  ld r1, r0, 0, any, keep
  self r0
  addi r0, r0, 1
  ;@ line examples/c/pool.c:41
  eq r0, r1, r0
  bnz r0, L3
L6:
  ;@ var block 1 -
  ;@ var block 1 - in 1
  mov r0, r6
  br L4
L3:
  ;@ line examples/c/pool.c:43
  ;@ var block 1 r3
  ;@ var block 1 r3 in 1
  ldi r13, 5
  shl r1, r3, r13
  ;@ line examples/c/pool.c:44
  lea r0, r2, r1
  st r0, r4, 0, any, keep
  addi r0, r1, 8
  lea r0, r2, r0
  st r0, r4, 0, any, keep
  addi r0, r1, 16
  lea r0, r2, r0
  st r0, r4, 0, any, keep
  addi r0, r1, 24
  lea r0, r2, r0
  st r0, r4, 0, any, keep
  ;@ line examples/c/pool.c:45
  ldi r13, 3
  shl r0, r3, r13
  ;@ var block 1 -
  ;@ var block 1 - in 1
  lea r0, r5, r0
  st r0, r4, 0, any, keep
  mov r0, r4
L4:
  ;@ line examples/c/pool.c:47
  jmp r14
pool_mm_door_look:
  ;@ function look at examples/c/pool.c:34
  ;@ inlined 1 is_his at examples/c/pool.c:36
  ;@ frame back - caller by 0
  mov r2, r0
  mov r3, r1
  ldi r4, 3
  ;@ line examples/c/pool.c:13 in 1
  ;@ var block 1 r2
  ;@ var at 1 r3
  ;@ var block 1 r2 in 1
  ldi r13, 2
  ltu r0, r2, r13
  bnz r0, L8
L12:
  ldi r1, 0
  br L9
L8:
  shl r0, r2, r4
  lip r12, P_0
  ld r12, r12, 0, any, keep
  lea r0, r12, r0
  ld r1, r0, 0, any, keep
  self r0
  addi r0, r0, 1
  eq r1, r1, r0
L9:
  ;@ line examples/c/pool.c:36
  ldi r13, 4
  ltu r0, r3, r13
  and r0, r0, r1
  bnz r0, L10
L13:
  ;@ var block 1 -
  ;@ var at 1 -
  ;@ var block 1 - in 1
  ldi r0, -1
  br L11
L10:
  ;@ var block 1 r2
  ;@ var at 1 r3
  ;@ var block 1 r2 in 1
  ldi r13, 5
  shl r1, r2, r13
  ;@ var block 1 -
  ;@ var block 1 - in 1
  shl r0, r3, r4
  ;@ var at 1 -
  add r0, r1, r0
  lip r12, P_1
  ld r12, r12, 0, any, keep
  lea r0, r12, r0
  ld r0, r0, 0, any, keep
L11:
  jmp r14
pool_mm_door_put:
  ;@ function put at examples/c/pool.c:26
  ;@ inlined 1 is_his at examples/c/pool.c:28
  ;@ frame back - caller by 0
  mov r3, r0
  mov r4, r1
  ldi r5, 3
  ldi r6, 0
  ;@ line examples/c/pool.c:13 in 1
  ;@ var block 1 r3
  ;@ var at 1 r4
  ;@ var value 1 r2
  ;@ var block 1 r3 in 1
  ldi r13, 2
  ltu r0, r3, r13
  bnz r0, L15
L19:
  ldi r1, 1
  br L16
L15:
  shl r0, r3, r5
  lip r12, P_0
  ld r12, r12, 0, any, keep
  lea r0, r12, r0
  ld r1, r0, 0, any, keep
  self r0
  addi r0, r0, 1
  eq r0, r1, r0
  eq r1, r0, r6
L16:
  ;@ line examples/c/pool.c:28
  ltu r0, r5, r4
  or r0, r0, r1
  bz r0, L17
L20:
  ;@ var block 1 -
  ;@ var at 1 -
  ;@ var value 1 -
  ;@ var block 1 - in 1
  ldi r0, -1
  br L18
L17:
  ;@ line examples/c/pool.c:30
  ;@ var block 1 r3
  ;@ var at 1 r4
  ;@ var value 1 r2
  ;@ var block 1 r3 in 1
  addi r2, r2, 0
  ;@ var value 1 -
  ldi r13, 5
  shl r1, r3, r13
  ;@ var block 1 -
  ;@ var block 1 - in 1
  shl r0, r4, r5
  ;@ var at 1 -
  add r0, r1, r0
  lip r12, P_1
  ld r12, r12, 0, any, keep
  lea r0, r12, r0
  st r0, r2, 0, any, keep
  mov r0, r6
L18:
  ;@ line examples/c/pool.c:32
  jmp r14
pool_mm_door_get:
  ;@ function get at examples/c/pool.c:16
  ;@ frame back - caller by 0
  lip r4, P_0
  ld r4, r4, 0, any, keep
  ldi r1, 3
  ldi r5, 2
  ;@ var block 1 0
  ldi r2, 0
L22:
  ;@ line examples/c/pool.c:19
  ;@ var block 1 r2
  shl r3, r2, r1
  lea r0, r4, r3
  ld r0, r0, 0, any, keep
  bnz r0, L24
L23:
  ;@ line examples/c/pool.c:20
  self r0
  addi r1, r0, 1
  lea r0, r4, r3
  st r0, r1, 0, any, keep
  ;@ line examples/c/pool.c:21
  ;@ var block 1 -
  br L25
L24:
  ;@ line examples/c/pool.c:18
  ;@ var block 1 r2
  addi r2, r2, 1
  eq r0, r2, r5
  bz r0, L22
L26:
  ;@ var block 1 -
  ldi r2, -1
L25:
  ;@ line examples/c/pool.c:24
  mov r0, r2
  jmp r14
P_0: .ptr rw pool_tenant+0
P_1: .ptr rw pool_blocks+0
.segment pool_tenant 4
  ;@ global tenant 16 at 0 type 2
.segment pool_blocks 6
  ;@ global blocks 64 at 0 type 4
.segment pool_turn 3
  .ptr rw pool_door_stack+65472
.segment door_get 9
  .ptr rw pool_turn
  .ptr xu pool_mm_door_get
  isptr r12, r14
  bz r12, 30
  ldi r12, 60
  shr r12, r14, r12
  addi r12, r12, -3
  bz r12, 3
  addi r12, r12, -2
  bnz r12, 24
  lip r12, -10
  ld r6, r12, 0, any, keep
  ld r13, r6, 0, full, empty
  st r13, r14, 0, any, keep
  st r13, r6, 8, any, keep
  mov r15, r13
  ld r12, r12, 8, any, keep
  jal r14, r12
  ld r6, r15, 8, any, keep
  ld r14, r15, 0, any, keep
  ldi r12, 0
  st r15, r12, 0, any, keep
  st r15, r12, 8, any, keep
  st r6, r15, 0, empty, full
  ldi r1, 0
  ldi r2, 0
  ldi r3, 0
  ldi r4, 0
  ldi r5, 0
  ldi r6, 0
  ldi r13, 0
  ldi r15, 0
  jmp r14
  halt
.segment door_put 9
  .ptr rw pool_turn
  .ptr xu pool_mm_door_put
  isptr r12, r14
  bz r12, 30
  ldi r12, 60
  shr r12, r14, r12
  addi r12, r12, -3
  bz r12, 3
  addi r12, r12, -2
  bnz r12, 24
  lip r12, -10
  ld r6, r12, 0, any, keep
  ld r13, r6, 0, full, empty
  st r13, r14, 0, any, keep
  st r13, r6, 8, any, keep
  mov r15, r13
  ld r12, r12, 8, any, keep
  jal r14, r12
  ld r6, r15, 8, any, keep
  ld r14, r15, 0, any, keep
  ldi r12, 0
  st r15, r12, 0, any, keep
  st r15, r12, 8, any, keep
  st r6, r15, 0, empty, full
  ldi r1, 0
  ldi r2, 0
  ldi r3, 0
  ldi r4, 0
  ldi r5, 0
  ldi r6, 0
  ldi r13, 0
  ldi r15, 0
  jmp r14
  halt
.segment door_look 9
  .ptr rw pool_turn
  .ptr xu pool_mm_door_look
  isptr r12, r14
  bz r12, 30
  ldi r12, 60
  shr r12, r14, r12
  addi r12, r12, -3
  bz r12, 3
  addi r12, r12, -2
  bnz r12, 24
  lip r12, -10
  ld r6, r12, 0, any, keep
  ld r13, r6, 0, full, empty
  st r13, r14, 0, any, keep
  st r13, r6, 8, any, keep
  mov r15, r13
  ld r12, r12, 8, any, keep
  jal r14, r12
  ld r6, r15, 8, any, keep
  ld r14, r15, 0, any, keep
  ldi r12, 0
  st r15, r12, 0, any, keep
  st r15, r12, 8, any, keep
  st r6, r15, 0, empty, full
  ldi r1, 0
  ldi r2, 0
  ldi r3, 0
  ldi r4, 0
  ldi r5, 0
  ldi r6, 0
  ldi r13, 0
  ldi r15, 0
  jmp r14
  halt
.segment door_give_back 9
  .ptr rw pool_turn
  .ptr xu pool_mm_door_give_back
  isptr r12, r14
  bz r12, 30
  ldi r12, 60
  shr r12, r14, r12
  addi r12, r12, -3
  bz r12, 3
  addi r12, r12, -2
  bnz r12, 24
  lip r12, -10
  ld r6, r12, 0, any, keep
  ld r13, r6, 0, full, empty
  st r13, r14, 0, any, keep
  st r13, r6, 8, any, keep
  mov r15, r13
  ld r12, r12, 8, any, keep
  jal r14, r12
  ld r6, r15, 8, any, keep
  ld r14, r15, 0, any, keep
  ldi r12, 0
  st r15, r12, 0, any, keep
  st r15, r12, 8, any, keep
  st r6, r15, 0, empty, full
  ldi r1, 0
  ldi r2, 0
  ldi r3, 0
  ldi r4, 0
  ldi r5, 0
  ldi r6, 0
  ldi r13, 0
  ldi r15, 0
  jmp r14
  halt
.segment pool_door_stack 16
;@ type 1 base i8 long
;@ type 2 array 2 1
;@ type 3 array 4 1
;@ type 4 array 2 3
