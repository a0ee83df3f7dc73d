; Three slots of the kernel, each serves some of six callers; four gates with a count each.
; keeps 1048576/6,1048640/6,1048704/6,1048768/6,1048832/5,1048864/5,1048896/5,1049120/3,1049128/3,1049136/3,1049144/3
.segment gate1 6
  .ptr rw count1
door1: lip r7, -1
  ld r7, r7, 0, any, keep
  ld r8, r7, 0, any, keep
  addi r8, r8, 1
  st r7, r8, 0, any, keep
  ldi r7, 0
  jmp r6
.segment count1 3
  .int 0
.segment gate2 6
  .ptr rw count2
door2: lip r7, -1
  ld r7, r7, 0, any, keep
  ld r8, r7, 0, any, keep
  addi r8, r8, 2
  st r7, r8, 0, any, full
  ldi r7, 0
  jmp r6
.segment count2 3
  .int 0
.segment gate3 6
  .ptr rw count3
door3: lip r7, -1
  ld r7, r7, 0, any, keep
  ld r8, r7, 0, any, keep
  addi r8, r8, 3
  st r7, r8, 0, any, keep
  ldi r7, 0
  jmp r6
.segment count3 3
  .int 0
.segment gate4 6
  .ptr rw count4
door4: lip r7, -1
  ld r7, r7, 0, any, keep
  ld r8, r7, 0, any, keep
  addi r8, r8, 4
  st r7, r8, 0, any, full
  ldi r7, 0
  jmp r6
.segment count4 3
  .int 0
.segment serve1 5
wait1: evt r4
  resume r4, skip
  br wait1
.segment serve2 5
wait2: evt r4
  resume r4, skip
  br wait2
.segment serve3 5
wait3: evt r4
  resume r4, skip
  br wait3
.segment call1 5
  trap 1
  jal r6, r5
  halt
.segment call2 5
  trap 2
  jal r6, r5
  halt
.segment call3 5
  trap 3
  jal r6, r5
  halt
.segment call4 5
  trap 4
  jal r6, r5
  halt
.segment call5 5
  trap 5
  jal r6, r5
  halt
.segment call6 5
  trap 6
  jal r6, r5
  halt
.thread 15 14 none xu serve1
.reg 1 ptr rw count1
.thread 7 7 none xu serve2
.reg 1 ptr rw count2
.thread 2 9 none xu serve3
.reg 1 ptr rw count3
.thread 0 0 15 xu call1
.reg 5 ptr eu door1
.thread 1 1 7 xu call2
.reg 5 ptr eu door2
.thread 5 3 2 xu call3
.reg 5 ptr eu door3
.thread 10 15 15 xu call4
.reg 5 ptr eu door4
.thread 12 12 none xu call5
.reg 5 ptr eu door1
.thread 14 1 none xu call6
.reg 5 ptr eu door2
