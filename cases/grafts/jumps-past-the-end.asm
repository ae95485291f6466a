# A target past the last instruction.
jmp @1
