set working-directory := 'client'

build:
	@mkdir -p ../out
	@echo "client of $(cat name)" > ../out/client

test: build
	@grep -q client ../out/client && echo "client is fine"

package version: build
	@echo "client {{version}}" >> ../out/packages
	@cat ../out/packages
