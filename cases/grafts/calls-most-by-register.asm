# The greatest id.
li r5 4294967295
callr r5
ret
