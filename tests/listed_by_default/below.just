deep:
	@echo deep
