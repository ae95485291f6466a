# A call that may not be, and then a jump.
call 16
jz r1 @3
ret
