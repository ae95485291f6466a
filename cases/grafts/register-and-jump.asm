# A register and a target that may not be, in one instruction.
jz r15 @9
ret
