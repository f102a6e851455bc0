.function f,leaf,0,0,1
	set 1099511627776,%o0
