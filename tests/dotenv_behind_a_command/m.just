set dotenv-load

a:
	@echo "$A $B $C"
