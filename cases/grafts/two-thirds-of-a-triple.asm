# An address that is masked and not used.
andi r14 r2 4092
or r14 r14 r15
