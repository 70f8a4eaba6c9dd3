module pokhnier

go 1.21
