mov r4 r0
li r0 1
again:
jz r1 end
mul r0 r0 r4
li r5 1
sub r1 r1 r5
jmp again
end:
ret
