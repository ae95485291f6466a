# Says that it gives two bytes.
li r0 2
ret
