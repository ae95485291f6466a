# Takes user lock 3 and never ends.
li r0 3
call take_lock
again:
jmp again
