# Traps with a code.
trap 77
