x:
	@pwd
