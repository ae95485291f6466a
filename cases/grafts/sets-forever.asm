# Cell 0 is set again and again.
again:
li r0 0
call cell_set
jmp again
