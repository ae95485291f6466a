# Asks what to read ahead of descriptor 0, and answers as it was asked.
mov r8 r0
li r0 0
call ask_ra
mov r0 r8
ret
