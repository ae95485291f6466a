# The mask of a word before a byte.
andi r14 r2 4092
or r14 r14 r15
stb r1 r14
ret
