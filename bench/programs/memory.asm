# To each word of the segment its place and one are added, five times over. The result is the last word.
li r8 4096
li r6 5
round:
li r4 0
word:
ldw r5 r4
add r5 r5 r4
addi r5 r5 1
stw r5 r4
addi r4 r4 4
sltu r7 r4 r8
jnz r7 word
addi r6 r6 4294967295
jnz r6 round
li r0 0
mov r1 r5
call cell_set
li r0 0
ret
