out := 'out'

# removes what was made
clean:
	@rm -r {{out}}
