# The parameter of reading ahead becomes 5, then a division by zero.
mov r8 r0
mov r9 r1
li r0 0
li r1 0
li r2 5
call tune_set
li r7 0
divu r7 r7 r7
ret
