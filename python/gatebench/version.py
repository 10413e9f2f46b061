"""The version of this package, and of the programs too."""
__version__ = "0.1.0"
