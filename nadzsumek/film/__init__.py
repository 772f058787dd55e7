"""The page on which a browser shows a film of a record."""
