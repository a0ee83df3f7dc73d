; Code of its own for each group.
.segment code 3
 halt
.segment code1 3
 halt
.segment code2 3
 halt
.segment sh 3
 .int 0
.segment own 3
 .int 0
.thread 0 0 none xu code
.reg 1 ptr rw sh
.thread 1 1 none xu code1
.reg 1 ptr ro sh
.thread 2 2 none xu code2
.reg 1 ptr rw own
