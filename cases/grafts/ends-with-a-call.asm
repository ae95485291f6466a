# Ends with a call.
ret
call 2
