# A call of the greatest id.
call 4294967295
ret
