"""A recording as a page that one can look at; make.py puts it together."""
