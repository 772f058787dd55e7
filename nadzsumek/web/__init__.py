"""Pages for the students of a class, and one for the teacher: `class web`. See docs/guides/CLASS.md."""
