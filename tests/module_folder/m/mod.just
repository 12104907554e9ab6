p:
	@pwd

[working-directory('w')]
q:
	@pwd
