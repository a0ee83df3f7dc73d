; A name is copied into a record that has room for four letters, and the price comes after them. The name has five.
.segment copy 7
next: ld r3, r1, 0, any, keep
  bz r3, done
  st r2, r3, 0, any, keep
  leai r1, r1, 8
  leai r2, r2, 8
  br next
done: ld r4, r5, 0, any, keep
  out r4
  halt
.segment record 6
name: .fill 4
price:
  .int 36                 ; $
.segment text 6
  .int 104                ; h
  .int 101                ; e
  .int 108                ; l
  .int 108                ; l
  .int 111                ; o
  .int 0
.thread 0 0 none xu copy
.reg 1 ptr ro text
.reg 2 ptr rw name
.reg 5 ptr ro price
