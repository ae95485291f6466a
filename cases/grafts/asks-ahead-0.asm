# Asks what to read ahead of descriptor 0.
li r0 0
call ask_ra
ret
