"""A client of the register: tables by which Wireshark names the frames and signals of a plan, and a capture of the plan's bus."""
