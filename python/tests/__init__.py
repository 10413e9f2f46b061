"""Tests of the package over the program; tools/scripts runs them."""
