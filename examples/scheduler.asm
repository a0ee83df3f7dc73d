; A scheduler. Two jobs share one slot: each says a letter, and then hands the slot to the other one by a trap. The
; scheduler is the slot's handler. It keeps the registers of the job that waits in a row of its own, and loads them
; again when that job is next.
.segment scheduler 9
next: evt r4              ; r4 is the cause + 256 * the slot, r7 the number of the trap
  ldi r1, 8
  shr r3, r4, r1          ; the slot
  ldi r1, 255
  and r2, r4, r1          ; the cause
  addi r2, r2, -11
  bnz r2, stop            ; 11 is Trap; any other fault of a job ends the slot
  rreg r8, r3, 1          ; the registers of the job go to its row, r10
  st r10, r8, 0, any, keep
  rreg r8, r3, 2
  st r10, r8, 8, any, keep
  rreg r8, r3, 15
  st r10, r8, 16, any, keep
  addi r2, r7, -1
  bz r2, yields
  addi r12, r12, -1       ; trap 2: the job is done
  bz r12, stop            ; it was the last one
  br swap
yields: addi r2, r12, -1  ; trap 1: the other job is next
  bz r2, load             ; there is no other one: it goes on itself
swap: mov r9, r10
  mov r10, r11
  mov r11, r9
load: ld r8, r10, 0, any, keep
  wreg r3, r8, 1
  ld r8, r10, 8, any, keep
  wreg r3, r8, 2
  ld r8, r10, 16, any, keep
  wreg r3, r8, 15
  resume r3, skip         ; at the jump after the trap, which goes where r15 leads
  br next
stop: resume r3, kill
  br next
.segment job 7
again: out r1
  addi r1, r1, 1
  lip r15, more           ; where this job goes on
  trap 1
  jmp r15                 ; here the slot changes its job
more: addi r2, r2, -1
  bnz r2, again
  trap 2
  jmp r15
.segment first 5
  .fill 4
.segment second 5
  .int 97                 ; r1: the letter a
  .int 3                  ; r2: three letters
  .ptr xu job             ; r15: where it begins
  .fill 1
.thread 0 0 none xu scheduler
.reg 10 ptr rw first
.reg 11 ptr rw second
.reg 12 int 2
.thread 1 1 0 xu job
.reg 1 int 65
.reg 2 int 2
