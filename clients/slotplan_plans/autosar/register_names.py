"""Names of the register in place of a file's."""
import re

NAME = re.compile("[A-Za-z][A-Za-z0-9_]{0,31}")
LONGEST = 32


class Names:
    """Names of one space: at most 32 letters, digits and underscores, a letter first, each once. Those that are `kept` are free for who asks for
    them as they are."""

    def __init__(self, kept=()):
        self.kept, self.taken = set(kept), set()

    def new(self, wanted, known=None):
        """The name that is known already, or else one like what is wanted."""
        name = known if known and known not in self.taken else self.free(wanted)
        self.taken.add(name)
        return name

    def free(self, wanted):
        form = re.sub("[^A-Za-z0-9_]", "_", wanted)
        form = form if form[:1].isalpha() else f"x{form}"
        name, number = form[:LONGEST], 1
        while name in self.taken or name in self.kept:
            number += 1
            end = f"_{number}"
            name = form[: LONGEST - len(end)] + end
        return name
