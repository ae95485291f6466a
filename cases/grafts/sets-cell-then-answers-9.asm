# Cell 0 becomes 8; the answer names a process that is not living.
li r0 0
li r1 8
call cell_set
li r0 9
ret
