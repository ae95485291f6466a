# A jump that may not be, and then a call.
jz r1 @3
call 16
ret
