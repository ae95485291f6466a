# How many primes are below 2,048: a byte is 1 where its place is a multiple of a smaller number.
li r9 2048
li r11 1
li r4 2
li r10 0
number:
ldb r5 r4
jnz r5 next
addi r10 r10 1
add r6 r4 r4
jmp test
multiple:
stb r11 r6
add r6 r6 r4
test:
sltu r7 r6 r9
jnz r7 multiple
next:
addi r4 r4 1
sltu r7 r4 r9
jnz r7 number
li r0 0
mov r1 r10
call cell_set
li r0 0
ret
