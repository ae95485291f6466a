li r4 10
li r5 1
again:
call 2
sub r4 r4 r5
jnz r4 again
ret
