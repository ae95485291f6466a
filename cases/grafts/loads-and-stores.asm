# Each access once.
ldw r1 r2
stw r3 r4
ldb r5 r6
stb r7 r8
ret
