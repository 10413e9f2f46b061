"""A second reading of the rules, written from docs/SPEC.md alone and not from the program's sources.

It is short and slow: dictionaries, and a run that looks at each gate at each moment at which anything may happen."""
