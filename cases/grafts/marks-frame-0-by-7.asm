# Frame 0 gets the mark 7.
mov r8 r0
mov r9 r1
li r0 0
li r1 7
call frame_mark
mov r0 r8
mov r1 r9
ret
