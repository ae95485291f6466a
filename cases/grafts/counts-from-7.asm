# The same, whose first word is 7 at first.
mov r10 r0
mov r11 r1
li r4 0
ldw r5 r4
addi r5 r5 1
stw r5 r4
li r0 0
mov r1 r5
call cell_set
mov r0 r10
mov r1 r11
ret
.bytes 07
