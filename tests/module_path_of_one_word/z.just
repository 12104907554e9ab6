# Builds a part.
build part:
