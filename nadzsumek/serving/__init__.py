"""People at one farm: sockets round `live` (serve), a terminal or lines for a user (connect), and folders for a class
(class)."""
