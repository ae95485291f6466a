# Asks who runs next; cell 0 becomes the answer.
mov r8 r0
mov r9 r1
call ask_sched
mov r1 r0
li r0 0
call cell_set
mov r0 r8
mov r1 r9
ret
