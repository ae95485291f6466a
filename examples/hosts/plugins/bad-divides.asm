li r4 64
li r5 4660
stw r5 r4
li r0 1
li r1 99
call 1
li r4 0
divu r0 r0 r4
ret
