.segment gate_text 6
gate_mm_door_count:
  ;@ function count at examples/c/gate.c:6
  ;@ frame back - caller by 0
  lip r1, P_0
  ld r1, r1, 0, any, keep
  ;@ line examples/c/gate.c:8
  ld r0, r1, 0, any, keep
  addi r0, r0, 1
  st r1, r0, 0, any, keep
  jmp r14
P_0: .ptr rw gate_visitors+0
.segment gate_visitors 3
  ;@ global visitors 8 at 0 type 1
.segment gate_turn 3
  .ptr rw gate_door_stack+65472
.segment door_count 9
  .ptr rw gate_turn
  .ptr xu gate_mm_door_count
  isptr r12, r14
  bz r12, 30
  ldi r12, 60
  shr r12, r14, r12
  addi r12, r12, -3
  bz r12, 3
  addi r12, r12, -2
  bnz r12, 24
  lip r12, -10
  ld r6, r12, 0, any, keep
  ld r13, r6, 0, full, empty
  st r13, r14, 0, any, keep
  st r13, r6, 8, any, keep
  mov r15, r13
  ld r12, r12, 8, any, keep
  jal r14, r12
  ld r6, r15, 8, any, keep
  ld r14, r15, 0, any, keep
  ldi r12, 0
  st r15, r12, 0, any, keep
  st r15, r12, 8, any, keep
  st r6, r15, 0, empty, full
  ldi r1, 0
  ldi r2, 0
  ldi r3, 0
  ldi r4, 0
  ldi r5, 0
  ldi r6, 0
  ldi r13, 0
  ldi r15, 0
  jmp r14
  halt
.segment gate_door_stack 16
;@ type 1 base i8 long
