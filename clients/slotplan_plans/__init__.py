"""The command `slotplan-plans`: plans in the files of other tools, and registers that move."""
