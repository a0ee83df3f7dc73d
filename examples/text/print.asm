; Prints texts and numbers. A program calls either through an enter pointer, by `jal r6, r5`. Only r1 to r4 change.

; r1: a pointer to the first letter of a text that ends with 0.
.segment print_text 6
next: ld r2, r1, 0, any, keep
  bz r2, end
  out r2
  leai r1, r1, 8
  br next
end: jmp r6

; r1: an integer, which may be negative.
.segment print_number 8
  ldi r2, 0
  lts r3, r1, r2          ; 1 if it is below 0
  bz r3, positive
  ldi r3, '-'
  out r3
  sub r1, r2, r1
positive: ldi r2, 10
  ldi r3, 1               ; what the first digit counts: 1, 10, 100 ..
more: divu r4, r1, r3
  ltu r4, r4, r2          ; 1 if one digit is left
  bnz r4, digit
  mul r3, r3, r2
  br more
digit: divu r4, r1, r3
  addi r4, r4, '0'
  out r4
  remu r1, r1, r3
  divu r3, r3, r2
  bnz r3, digit
  jmp r6
