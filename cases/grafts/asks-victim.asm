# Asks which frame to evict.
call ask_victim
ret
