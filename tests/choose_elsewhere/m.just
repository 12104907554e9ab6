set default-list

x:
	@echo x
