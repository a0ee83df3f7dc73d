; A keeper lends blocks of memory to three clients, and takes them back. A client asks for a block by `trap 1`, and
; gives it back by `trap 2`. It never gets a pointer to the block: its door leads to a lease, a word with the pointer to
; its block. To take the block back, the keeper clears that word. It does so too if the client faults, wherever that is.
.segment keeper 9
next: evt r4              ; r4 is the cause + 256 * the slot, r7 the number of the trap
  ldi r1, 8
  shr r3, r4, r1          ; the slot
  ldi r1, 3
  shl r1, r3, r1
  leab r5, r10, r1        ; r10 leads to a list of the leases, one for each slot
  ld r5, r5, 0, any, keep ; r5 leads to the lease of this client
  ld r6, r5, 0, any, keep ; r6 to its block, or it is 0
  ldi r1, 255
  and r2, r4, r1
  addi r2, r2, -11        ; r2 is 0 at a trap: 11 is Trap
  bnz r2, back            ; any other fault is the client's end
  addi r1, r7, -1
  bnz r1, back            ; trap 2
  isptr r1, r6            ; trap 1
  bnz r1, answer          ; it has a block already
  bz r12, answer          ; no block is free: r12 says how many bytes of the pool are in use
  addi r12, r12, -8
  leab r1, r11, r12       ; r11 leads to the pool
  ld r6, r1, 0, any, keep
  st r5, r6, 0, any, keep ; from now on the client's door leads to this block
  ldi r1, 1
answer: wreg r3, r1, 3    ; the client's r3: does it have a block?
  resume r3, skip
  br next
back: isptr r1, r6
  bz r1, on               ; it has no block
  ldi r1, 0
  st r5, r1, 0, any, keep ; from now on its door leads nowhere
  st r6, r1, 0, any, keep ; the next client finds nothing in the block
  st r6, r1, 8, any, keep
  leab r1, r11, r12
  st r1, r6, 0, any, keep ; the block is in the pool again
  addi r12, r12, 8
on: bnz r2, end
  resume r3, skip
  br next
end: resume r3, kill
  br next
.segment use 6
  ld r8, r7, 0, any, keep ; r7 leads to the lease, r1 says which bytes of the block, r6 is the way back
  leab r8, r8, r1         ; a fault, if the client has no block
  ld r3, r8, 0, any, keep ; r3 is what was there
  addi r2, r2, 0          ; of a pointer this makes a number
  st r8, r2, 0, any, keep ; r2 goes there
  ldi r7, 0
  ldi r8, 0
  jmp r6
.segment polite_gate 6
polite_own: .ptr ro polite_lease
  .ptr xu use
polite_door: lip r7, polite_own
  ld r8, r7, 8, any, keep
  ld r7, r7, 0, any, keep
  jmp r8
.segment clumsy_gate 6
clumsy_own: .ptr ro clumsy_lease
  .ptr xu use
clumsy_door: lip r7, clumsy_own
  ld r8, r7, 8, any, keep
  ld r7, r7, 0, any, keep
  jmp r8
.segment nosy_gate 6
nosy_own: .ptr ro nosy_lease
  .ptr xu use
nosy_door: lip r7, nosy_own
  ld r8, r7, 8, any, keep
  ld r7, r7, 0, any, keep
  jmp r8
.segment polite_lease 3
  .int 0
.segment clumsy_lease 3
  .int 0
.segment nosy_lease 3
  .int 0
.segment leases 5
  .int 0                  ; slot 0 is the keeper's
  .ptr rw polite_lease
  .ptr rw clumsy_lease
  .ptr rw nosy_lease
.segment pool 4
  .ptr rw block_one
  .ptr rw block_two
.segment block_one 4
  .fill 2
.segment block_two 4
  .fill 2
.segment polite 6
polite_asks: trap 1
  bz r3, polite_asks      ; no block is free: ask again
  jal r6, r5              ; puts a letter into the block
  jal r6, r5              ; and finds it there
  out r3
  trap 2                  ; gives the block back
  halt
.segment clumsy 5
  trap 1                  ; does not look whether it has got a block
  jal r6, r5              ; puts a letter into it
  divu r3, r3, r0         ; and divides by zero
.segment nosy 6
nosy_asks: trap 1
  bz r3, nosy_asks
  jal r6, r5              ; what did others leave in the block?
  addi r3, r3, 48
  out r3
  ldi r1, 16
  jal r6, r5              ; what lies behind the block?
  halt
.thread 0 0 none xu keeper
.reg 10 ptr ro leases
.reg 11 ptr rw pool
.reg 12 int 16            ; two pointers
.thread 1 1 0 xu polite
.reg 2 int 65
.reg 5 ptr eu polite_door
.thread 2 2 0 xu clumsy
.reg 2 int 66
.reg 5 ptr eu clumsy_door
.thread 3 3 0 xu nosy
.reg 5 ptr eu nosy_door
