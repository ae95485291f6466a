# Its nice becomes 3.
mov r8 r0
li r0 3
call nice_set
mov r0 r8
ret
