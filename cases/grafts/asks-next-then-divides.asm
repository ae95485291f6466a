# Asks who runs next, then divides by zero.
mov r8 r0
mov r9 r1
call ask_sched
mov r0 r8
mov r1 r9
li r7 0
divu r7 r7 r7
ret
