# the last
last:
