"""FIBEX files (ASAM MCD-2 NET, releases 3.1 and 4.1): a plan as such a file, and such a file as a plan."""
