# Never ends.
again:
jmp again
