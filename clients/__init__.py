"""Programs over a register as it is, in python3's standard library: over HTTP, or of a file by the program `slotplan`."""
