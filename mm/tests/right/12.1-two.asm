; Two gates: the visitor's can only read. They use other registers, and clear all that they used at once.
.segment puts 7
where: .ptr rw drawers
put: ldi r10, 4
  ltu r10, r1, r10
  bz r10, no
  ldi r10, 8
  mul r10, r10, r1
  lip r11, where
  ld r11, r11, 0, any, keep
  leab r11, r11, r10
  st r11, r2, 0, any, keep
  mov r11, r10
no: jmp r6
.segment gets 7
also: .ptr ro drawers
get: ldi r10, 3
  ltu r10, r10, r1
  bnz r10, none
  ldi r10, 8
  mul r10, r10, r1
  lip r11, also
  ld r11, r11, 0, any, keep
  leab r11, r11, r10
  ld r2, r11, 0, any, keep
  mov r11, r10
none: jmp r6
.segment drawers 5
  .int 65                 ; A
  .int 66
  .int 67
  .int 68
.segment clerk 5
  jal r6, r5
  mov r1, r3
  jal r6, r5              ; there is no drawer 9
  halt
.segment visitor 5
  jal r6, r5
  out r2
  st r8, r3, 0, any, keep ; through what the gate has left
  halt
.thread 0 0 none xu clerk
.reg 1 int 0
.reg 2 int 88             ; X
.reg 3 int 9
.reg 5 ptr eu put
.thread 1 1 none xu visitor
.reg 1 int 2
.reg 3 int 63             ; a question mark
.reg 5 ptr eu get
