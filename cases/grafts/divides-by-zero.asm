# The quotient by zero.
li r5 0
divu r4 r0 r5
ret
