# Jumps that are taken and not: cell 0 becomes 1 + 2 + 4 where each goes as it should.
mov r8 r0
li r1 0
li r5 1
jz r7 first
jmp wrong
first:
jz r5 wrong
addi r1 r1 1
jnz r5 second
jmp wrong
second:
jnz r7 wrong
addi r1 r1 2
jmp third
li r1 99
third:
addi r1 r1 4
wrong:
li r0 0
call cell_set
mov r0 r8
ret
