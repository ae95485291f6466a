li r4 64
li r5 4660
stw r5 r4
li r0 1
li r1 99
call 1
li r0 513
ret
