# A direct call of an id past the list.
call 16
ret
