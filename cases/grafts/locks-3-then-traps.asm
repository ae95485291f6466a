# Takes user lock 3; then a trap.
li r0 3
call take_lock
trap 5
