# Names r15 outside of an access.
ret
li r15 0
ret
