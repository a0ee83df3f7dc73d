; A pager. A client asks for memory by a trap, and gets a pointer to four pages, none of which is mapped yet. The first
; time that it touches a page it faults. The pager is its handler, and privileged: it maps the page and lets
; the client try the instruction again. A client may have two pages.
.segment pager 8
next: evt r4              ; r4 is the cause + 256 * the slot, r6 the pointer that was used
  ldi r1, 255
  and r2, r4, r1          ; the cause
  ldi r1, 8
  shr r3, r4, r1          ; the slot
  addi r1, r2, -11
  bz r1, give             ; 11 is Trap: it asks for memory
  addi r1, r2, -5
  bnz r1, end             ; 5 is NoPage; any other fault ends the client
  bz r9, end              ; r9 counts the pages that it may still have
  addi r9, r9, -1
  ldi r1, 10
  shl r7, r6, r1          ; the address, without permission and length in front
  ldi r1, 22
  shr r7, r7, r1          ; the number of its page, without the place in the page at the end
  map r8, r7
  bz r8, end              ; no frame is free
  resume r3, retry
  br next
give: ldi r7, 0x23800000  ; read/write, 2^14 bytes,
  ldhi r7, 0x40000000     ; from this address on
  setptr r7, r7
  wreg r3, r7, 1
  resume r3, skip
  br next
end: resume r3, kill
  br next
.segment client 6
  trap 1                  ; gives a pointer to memory in r1
again: st r1, r2, 0, any, keep
  ld r3, r1, 0, any, keep
  out r3
  addi r2, r2, 1
  lea r1, r1, r4          ; a page on
  br again
.spare 3
.thread 0 0 none xp pager
.reg 9 int 2
.thread 1 1 0 xu client
.reg 2 int 65
.reg 4 int 4096
