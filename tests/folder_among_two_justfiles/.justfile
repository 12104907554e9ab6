w:
	echo w
