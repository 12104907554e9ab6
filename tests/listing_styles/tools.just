[group('style')]
lint path:
	echo {{path}}

# what is inside
mod inner

show:
