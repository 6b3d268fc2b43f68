module fcbench

go 1.19
