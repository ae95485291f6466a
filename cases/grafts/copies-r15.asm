# Reads r15 outside of an access.
mov r1 r15
ret
