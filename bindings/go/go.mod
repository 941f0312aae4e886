module paseto-proved

go 1.19
