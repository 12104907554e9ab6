k:
	echo k
