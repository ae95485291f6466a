# Cell 1, the nice, the window of descriptor 0 and the mark of frame 0 are changed; then a trap.
li r0 1
li r1 9
call cell_set
li r0 39
call nice_set
li r0 0
li r1 0
call window_set
li r0 0
li r1 255
call frame_mark
trap 1
