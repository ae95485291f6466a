# Answers with one byte more than there may be.
li r0 513
ret
