"""What works on the repository and is no test: the gate, what compiles without proof, and what prints parts of the sources."""
