# Reads cell 0, and divides by it where it is 0.
li r0 0
call cell_get
jnz r0 done
divu r0 r0 r0
done:
li r0 0
li r1 0
ret
