# A word at the segment's last address but three, by two addresses, and a byte of it.
mov r8 r0
li r3 305419896
li r4 4294967295
stw r3 r4
li r4 4093
ldw r1 r4
li r0 0
call cell_set
li r4 262142
ldb r1 r4
li r0 1
call cell_set
stb r3 r4
li r4 4092
ldw r1 r4
li r0 2
call cell_set
mov r0 r8
ret
