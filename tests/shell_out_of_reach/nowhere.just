[working-directory('/dev/null')]
shell:
	@true
