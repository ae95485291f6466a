call 2
addi r0 r0 1
ret
