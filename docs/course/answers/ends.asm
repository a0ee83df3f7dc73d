; Three threads without a halt: two run into words that are not instructions, and one to the end of its segment.
.segment data 4
  ldi r1, 1
  .int 65
.segment pointer 4
  ldi r1, 1
  .ptr ro data
.segment end 4
  ldi r1, 1
  ldi r2, 2
.thread 0 0 none xu data
.thread 1 1 none xu pointer
.thread 2 2 none xu end
