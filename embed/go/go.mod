module tower

go 1.18
