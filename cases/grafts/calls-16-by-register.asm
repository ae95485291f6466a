# The same by a register.
li r4 16
callr r4
ret
