# Asks what to read ahead of descriptor 0; cells 2 and 3 become the answer's r0 and r1.
mov r8 r0
li r0 0
call ask_ra
mov r6 r0
mov r7 r1
li r0 2
mov r1 r6
call cell_set
li r0 3
mov r1 r7
call cell_set
mov r0 r8
ret
