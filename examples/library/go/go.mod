module byzlab/answer

go 1.19
