# Puts a word at address 16, reads it back, and tells it in cell 0.
mov r8 r0
mov r9 r1
li r2 16
li r3 287454020
stw r3 r2
ldw r1 r2
li r0 0
call cell_set
mov r0 r8
mov r1 r9
ret
