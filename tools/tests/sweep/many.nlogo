; Runs that are over at once, and so many of them that a piece has several.
