y := 'b'

lint:
	echo {{y}}
