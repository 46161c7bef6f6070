module ti-terminfo/ti

go 1.19
