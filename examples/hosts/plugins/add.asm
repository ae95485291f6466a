add r0 r0 r1
ret
