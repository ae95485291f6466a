# Traps with the greatest code.
trap 4294967295
