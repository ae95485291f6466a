# Sets cell 0 and the window of descriptor 0, looks at the cache, and never ends.
li r0 0
li r1 8
call cell_set
li r0 0
li r1 8
call window_set
call frames_mine
again:
jmp again
