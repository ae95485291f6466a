# Gives its first four registers, a byte each.
li r5 2048
stb r0 r5
addi r5 r5 1
stb r1 r5
addi r5 r5 1
stb r2 r5
addi r5 r5 1
stb r3 r5
li r0 4
ret
