set tempdir := 'other'

shebang:
	#!/bin/sh
	echo "${0%/just-*}"
