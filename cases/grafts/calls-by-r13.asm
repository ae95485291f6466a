# A call by the last register that code may name.
callr r13
ret
