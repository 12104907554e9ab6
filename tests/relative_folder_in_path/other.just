set shell := ['teller', 'text']

line:
	@echo line
