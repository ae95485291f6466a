# Puts r0 to r3 over the first four bytes that it was fed.
li r5 2048
stb r0 r5
addi r5 r5 1
stb r1 r5
addi r5 r5 1
stb r2 r5
addi r5 r5 1
stb r3 r5
ret
