"""Dumps: their scopes, kinds, codes and moments."""
