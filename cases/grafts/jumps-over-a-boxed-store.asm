# The same as it is boxed.
jz r0 @4
andi r14 r2 4095
or r14 r14 r15
stb r1 r14
ret
