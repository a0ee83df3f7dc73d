; One thread prints h and i, another one an exclamation mark. In which orders can the three letters come?
.segment greets 5
  out r1
  out r2
  halt
.segment shouts 4
  out r1
  halt
.thread 0 0 none xu greets
.reg 1 int 104
.reg 2 int 105
.thread 1 0 none xu shouts
.reg 1 int 33
