"""A course: its exercises, what students hand in for them, and what the teacher sees of it."""
