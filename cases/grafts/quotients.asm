# 4294967295 by 10, with the remainder, and two comparisons without sign, in cells 0 to 3.
mov r8 r0
li r2 4294967295
li r3 10
divu r1 r2 r3
li r0 0
call cell_set
remu r1 r2 r3
li r0 1
call cell_set
sltu r1 r3 r2
li r0 2
call cell_set
sltu r1 r2 r2
li r0 3
call cell_set
mov r0 r8
ret
