module castd

go 1.18
