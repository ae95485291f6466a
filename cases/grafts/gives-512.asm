# Gives 512 bytes: those that it was fed, and what stands behind them.
li r0 512
ret
