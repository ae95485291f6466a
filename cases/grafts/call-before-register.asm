# A call that may not be, and then r15.
call 16
mov r15 r0
ret
