# An access whose address comes from r15.
andi r14 r15 4092
or r14 r14 r15
ldw r1 r14
ret
