# Evicts the newest of its own frames.
call frames_mine
addi r0 r0 4294967295
call frame_at
ret
