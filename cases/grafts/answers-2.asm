# Answers 2.
li r0 2
ret
