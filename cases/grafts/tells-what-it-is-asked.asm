# Cells 0 to 3 become r0 to r3 as they are when it begins.
mov r8 r0
mov r9 r1
mov r10 r2
mov r11 r3
li r0 0
mov r1 r8
call cell_set
li r0 1
mov r1 r9
call cell_set
li r0 2
mov r1 r10
call cell_set
li r0 3
mov r1 r11
call cell_set
mov r0 r8
mov r1 r9
ret
