set unstable

[script, cache(inputs='in', outputs='out_of_m')]
made:
	echo made in m
	cp in out_of_m
