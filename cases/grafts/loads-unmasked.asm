# An access whose address isn't masked, behind a ret.
ret
ldw r1 r2
