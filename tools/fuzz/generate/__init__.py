"""Makes design texts and sessions by a seed: right ones, ones near the grammar, ones at a limit, and mangled bytes."""
