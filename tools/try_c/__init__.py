"""The tests of the library for C, which the gate runs: in C, and of the package for Python."""
