"""Changes: what made them, what they led to, and in which nets two versions differ."""
