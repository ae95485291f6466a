# Turns over all bits of the first byte that it was fed, and answers r0 as it was.
li r4 2048
ldb r5 r4
li r6 255
xor r5 r5 r6
stb r5 r4
ret
