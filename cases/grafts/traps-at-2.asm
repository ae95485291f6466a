# Adds one to the first word of its segment, and traps where that becomes 2; the answer is what was asked.
mov r10 r0
mov r11 r1
li r4 0
ldw r5 r4
addi r5 r5 1
stw r5 r4
addi r6 r5 4294967294
jnz r6 fine
trap 77
fine:
mov r0 r10
mov r1 r11
ret
