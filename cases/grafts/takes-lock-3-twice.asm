# Takes user lock 3, and again.
mov r8 r0
li r0 3
call take_lock
li r0 3
call take_lock
mov r0 r8
ret
