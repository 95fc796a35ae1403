"""AUTOSAR system descriptions (ARXML, release 4): a plan as such a file, and such a file as a plan."""
