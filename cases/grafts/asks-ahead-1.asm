# Asks what to read ahead of descriptor 1.
li r0 1
call ask_ra
ret
