# Adds 1 to the first byte that it was fed, and gives it.
li r4 2048
ldb r5 r4
addi r5 r5 1
stb r5 r4
li r0 1
ret
