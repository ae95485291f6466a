# Asks which frame to evict; cell 0 becomes the answer.
mov r8 r0
call ask_victim
mov r1 r0
li r0 0
call cell_set
mov r0 r8
ret
