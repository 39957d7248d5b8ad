"""Peers that attack the package for Python and its examples, with the outcome that each must have. The gate runs them."""
