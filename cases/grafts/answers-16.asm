# Names a process that there can never be.
li r0 16
ret
