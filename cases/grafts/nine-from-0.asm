# More blocks than may be read ahead.
li r0 0
li r1 9
ret
