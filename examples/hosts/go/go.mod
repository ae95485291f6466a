module vino/host

go 1.19
