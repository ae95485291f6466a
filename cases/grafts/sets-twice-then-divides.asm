# Cell 0 becomes 7, then 9; then a division by zero.
li r0 0
li r1 7
call cell_set
li r0 0
li r1 9
call cell_set
li r2 0
divu r3 r0 r2
ret
