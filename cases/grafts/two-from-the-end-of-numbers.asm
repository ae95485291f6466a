# The start and the count together wrap to 1.
li r0 4294967295
li r1 2
ret
