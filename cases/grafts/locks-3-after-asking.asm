# Asks what to read ahead of descriptor 0; then takes user lock 3.
mov r8 r0
li r0 0
call ask_ra
li r0 3
call take_lock
mov r0 r8
ret
