call 2
li r1 6
divu r0 r1 r0
ret
