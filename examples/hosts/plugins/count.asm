li r0 0
call 0
addi r1 r0 1
li r0 0
call 1
mov r0 r1
ret
