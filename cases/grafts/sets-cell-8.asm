# Cell 0 becomes 8; the answer is what was asked.
mov r8 r0
mov r9 r1
li r0 0
li r1 8
call cell_set
mov r0 r8
mov r1 r9
ret
