# Calls the id in cell 0, by a register, with the arguments in cells 1 to 3. The result goes to cell 0.
mov r8 r0
mov r9 r1
li r0 0
call cell_get
mov r4 r0
li r0 1
call cell_get
mov r5 r0
li r0 2
call cell_get
mov r6 r0
li r0 3
call cell_get
mov r2 r0
mov r0 r5
mov r1 r6
callr r4
mov r1 r0
li r0 0
call cell_set
mov r0 r8
mov r1 r9
ret
