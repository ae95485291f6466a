# Answers 1.
li r0 1
ret
