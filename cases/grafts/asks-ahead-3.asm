# Asks what to read ahead of descriptor 3.
li r0 3
call ask_ra
ret
