# An access that isn't masked, and then r15.
stb r1 r2
mov r15 r0
