# An access that loads r14.
andi r14 r2 4092
or r14 r14 r15
ldw r14 r14
ret
