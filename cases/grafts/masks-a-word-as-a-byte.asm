# The mask of a byte before a word.
andi r14 r2 4095
or r14 r14 r15
ldw r1 r14
jmp @2
