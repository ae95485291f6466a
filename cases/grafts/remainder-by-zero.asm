# The remainder by zero.
li r5 0
remu r4 r5 r5
ret
