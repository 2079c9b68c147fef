"""A demo: a played bridge with its converter, service and counter, in one folder."""
