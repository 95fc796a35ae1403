"""What tests start and ask: the program, its servers and their clients, a browser, and programs of others that read what it writes."""
