"""What ends a command: a fault is one line, which says what is wrong."""


class Fault(Exception):
    """Why a command cannot go on, in one line."""
