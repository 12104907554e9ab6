export PATH := '/dev/null'

shell:
	@true
