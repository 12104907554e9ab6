s:
	@echo s
