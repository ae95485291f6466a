# A jump over an access.
jz r0 @2
stb r1 r2
ret
