# Sums, a difference and a product that wrap, in cells 0 to 3.
mov r8 r0
li r2 4294967295
addi r1 r2 3
li r0 0
call cell_set
li r3 2
li r4 1
sub r1 r4 r3
li r0 1
call cell_set
li r3 65537
mul r1 r3 r3
li r0 2
call cell_set
add r1 r2 r2
li r0 3
call cell_set
mov r0 r8
ret
