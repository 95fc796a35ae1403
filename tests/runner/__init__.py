"""How tests are run, and what each of them is."""
