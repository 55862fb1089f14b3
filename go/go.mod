module example.org/capn/go

go 1.19
