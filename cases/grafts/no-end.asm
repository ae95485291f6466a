# Ends with an instruction that isn't ret, jmp or trap.
mov r1 r2
