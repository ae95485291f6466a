# Six instructions.
mov r5 r5
mov r5 r5
mov r5 r5
mov r5 r5
mov r5 r5
ret
