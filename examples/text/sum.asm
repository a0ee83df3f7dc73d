; Adds four numbers, and prints their sum.
.segment main 7
again: ld r2, r1, 0, any, keep
  add r9, r9, r2
  addi r8, r8, -1
  bz r8, print
  leai r1, r1, 8
  br again
print: mov r1, r10        ; the text before the sum
  jal r6, r5
  mov r1, r9
  jal r6, r7
  ldi r1, '\n'
  out r1
  halt
.segment numbers 5
  .int 3
  .int 1
  .int 4
  .int -50
.segment before 7
  .asciiz "The sum is "
.thread 0 0 none xu main
.reg 1 ptr ro numbers
.reg 5 ptr eu print_text
.reg 7 ptr eu print_number
.reg 8 int 4
.reg 10 ptr ro before
