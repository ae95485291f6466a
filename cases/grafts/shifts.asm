# 3 shifted left by 33, all ones shifted right by 63, 1 by 31 and by 32, in cells 0 to 3.
mov r8 r0
li r2 3
li r3 33
shl r1 r2 r3
li r0 0
call cell_set
li r2 4294967295
li r3 63
shr r1 r2 r3
li r0 1
call cell_set
li r2 1
li r3 31
shl r1 r2 r3
li r0 2
call cell_set
li r3 32
shl r1 r2 r3
li r0 3
call cell_set
mov r0 r8
ret
