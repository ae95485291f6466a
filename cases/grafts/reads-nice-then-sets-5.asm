# Shares the queue, and then wants it for itself: its nice becomes 5.
mov r8 r0
call nice_get
li r0 5
call nice_set
mov r0 r8
ret
