set working-directory := 'server'

build:
	@mkdir -p ../out
	@echo "server of $(cat name)" > ../out/server

test: build
	@grep -q server ../out/server && echo "server is fine"

package version: build
	@echo "server {{version}}" >> ../out/packages
