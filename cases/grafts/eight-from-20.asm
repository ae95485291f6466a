# As many blocks as may be read ahead.
li r0 20
li r1 8
ret
