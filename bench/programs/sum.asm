# The sum of 1 to 20,000, modulo 2^32.
li r4 0
li r5 20000
again:
add r4 r4 r5
addi r5 r5 4294967295
jnz r5 again
li r0 0
mov r1 r4
call cell_set
li r0 0
ret
