# Names r14 outside of an access.
mov r14 r0
ret
