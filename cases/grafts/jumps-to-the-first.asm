# A jump to the first instruction of an access.
andi r14 r2 4092
or r14 r14 r15
ldw r1 r14
jmp @0
