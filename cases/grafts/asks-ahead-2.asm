# Asks what to read ahead of descriptor 2.
li r0 2
call ask_ra
ret
