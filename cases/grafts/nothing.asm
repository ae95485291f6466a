# Answers as it was asked.
ret
