"""Tests of design texts, over the built program: which design each spells, or how it is refused."""
