# Reads three blocks ahead, from block 6 on.
li r0 6
li r1 3
ret
