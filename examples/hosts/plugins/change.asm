li r4 64
stw r0 r4
mov r5 r1
li r0 1
li r1 99
call 1
divu r0 r0 r5
ret
