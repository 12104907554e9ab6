set working-directory := 'w'
s:
	echo s
