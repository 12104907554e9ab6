k:
	@echo there
