# The same as it is boxed.
andi r14 r2 4092
or r14 r14 r15
ldw r1 r14
andi r14 r4 4092
or r14 r14 r15
stw r3 r14
andi r14 r6 4095
or r14 r14 r15
ldb r5 r14
andi r14 r8 4095
or r14 r14 r15
stb r7 r14
ret
