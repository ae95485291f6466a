li r0 1
li r1 99
call 1
li r2 0
divu r0 r0 r2
ret
