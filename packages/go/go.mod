module mouktelf

go 1.18
