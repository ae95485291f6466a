# Takes user lock 3, and answers as it was asked.
mov r8 r0
mov r9 r1
li r0 3
call take_lock
mov r0 r8
mov r1 r9
ret
