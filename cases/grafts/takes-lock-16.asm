# There is no user lock 16.
li r0 16
call take_lock
ret
