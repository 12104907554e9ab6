set default-list

# lints
lint word='all':
	@echo linted {{word}}

first:
	@echo first

mod below
