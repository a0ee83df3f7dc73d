; The faults, but no thread ever had a pointer.
.segment uses 5
  ld r3, r2, 0, any, keep
  halt
.segment asks 5
  setptr r2, r2
  halt
.thread 0 0 none xu uses
.thread 1 1 none xu asks
