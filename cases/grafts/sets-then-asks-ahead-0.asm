# Cell 1 becomes 5; then asks what to read ahead of descriptor 0.
mov r8 r0
li r0 1
li r1 5
call cell_set
li r0 0
call ask_ra
mov r0 r8
ret
