# Answers 3.
li r0 3
ret
