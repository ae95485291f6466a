# Asks what to read ahead of descriptor 0, twice, then traps.
li r0 0
call ask_ra
li r0 0
call ask_ra
trap 77
