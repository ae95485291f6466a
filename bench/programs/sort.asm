# 128 drawn words are sorted by insertion. The result is the sum of each times its place, from 1, modulo 2^32.
li r9 512
li r11 1103515245
li r4 0
li r5 1
draw:
mul r5 r5 r11
addi r5 r5 12345
li r6 16
shr r7 r5 r6
stw r7 r4
addi r4 r4 4
sltu r7 r4 r9
jnz r7 draw
li r4 4
next:
ldw r5 r4
mov r6 r4
move:
jz r6 put
addi r7 r6 4294967292
ldw r8 r7
sltu r10 r5 r8
jz r10 put
stw r8 r6
mov r6 r7
jmp move
put:
stw r5 r6
addi r4 r4 4
sltu r7 r4 r9
jnz r7 next
li r4 0
li r5 0
li r6 1
add:
ldw r7 r4
mul r7 r7 r6
add r5 r5 r7
addi r6 r6 1
addi r4 r4 4
sltu r7 r4 r9
jnz r7 add
li r0 0
mov r1 r5
call cell_set
li r0 0
ret
