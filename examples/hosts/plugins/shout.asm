mov r0 r1
li r4 2048
li r8 1
again:
jz r1 end
ldb r5 r4
li r6 97
sub r6 r5 r6
li r7 26
sltu r6 r6 r7
li r7 32
mul r6 r6 r7
sub r5 r5 r6
stb r5 r4
addi r4 r4 1
sub r1 r1 r8
jmp again
end:
ret
