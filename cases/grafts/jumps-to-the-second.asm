# A jump to the second instruction of an access.
jz r1 @2
andi r14 r2 4092
or r14 r14 r15
ldw r1 r14
ret
