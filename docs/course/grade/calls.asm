; Other clients for exercise 1 of lesson 6.
.segment order 6
  trap 1
  trap 2
  trap 1
  trap 9
  trap 1
  halt
.segment fault 6
  trap 1
  ldi r2, 1
  st r2, r2, 0, any, keep ; a fault at which the handler finds 1 where a trap has its number
  trap 1
  halt
