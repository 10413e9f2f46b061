"""Lists of edits: what each makes of a design, and which is refused and why."""
