# Cell 0 becomes the word at address 16.
mov r8 r0
li r2 16
ldw r1 r2
li r0 0
call cell_set
mov r0 r8
ret
