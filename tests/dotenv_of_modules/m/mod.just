set dotenv-filename := 'n.env'

s:
	@echo "$A $B"
