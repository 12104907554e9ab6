w:
	@pwd
