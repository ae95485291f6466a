# The byte at address 4097 is that at 1; the word at 3 is that at 0. Then the word at 0 is overwritten.
mov r8 r0
li r4 4097
ldb r1 r4
li r0 1
call cell_set
li r0 0
li r4 3
ldw r1 r4
stw r8 r4
call cell_set
mov r0 r8
ret
.bytes 0080ff
