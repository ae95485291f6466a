# 12 and 10 by and, or and xor, and a mask, in cells 0 to 3.
mov r8 r0
li r2 12
li r3 10
and r1 r2 r3
li r0 0
call cell_set
or r1 r2 r3
li r0 1
call cell_set
xor r1 r2 r3
li r0 2
call cell_set
li r4 4294967295
andi r1 r4 4080
li r0 3
call cell_set
mov r0 r8
ret
