# Changes cell 0 64 times; the answer is what was asked.
mov r8 r0
li r7 64
again:
li r0 0
mov r1 r7
call cell_set
addi r7 r7 4294967295
jnz r7 again
mov r0 r8
ret
