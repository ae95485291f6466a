# Sets the parameter of reading ahead, and never ends.
li r0 0
li r1 0
li r2 5
call tune_set
again:
jmp again
