# A call of the last id.
call 15
ret
