# Reads three blocks ahead, or what is left of the file.
sub r4 r2 r0
li r5 3
sltu r6 r4 r5
jnz r6 few
mov r1 r5
ret
few:
mov r1 r4
ret
