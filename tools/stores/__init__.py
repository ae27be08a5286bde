"""What tools/fill, readings, ship, ship-test, starve, kill-test and fuzz know of store files: the layout of the journal, its slots and its records."""
