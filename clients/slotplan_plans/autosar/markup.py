"""XML as it is written: an element inside the other, a leaf on a line."""
import io
from xml.sax.saxutils import escape, quoteattr


class Markup:
    """What is written to a file. `with markup.of(TAG):` writes an element with what is written inside."""

    def __init__(self, file, indent=""):
        self.file, self.indent = file, indent

    def of(self, *tags, **attributes):
        """Elements with these tags, one in the other; the attributes are those of the last."""
        for tag in tags[:-1]:
            self.file.write(f"{self.indent}<{tag}>\n")
            self.indent += "  "
        self.file.write(f"{self.indent}<{tags[-1]}{written(attributes)}>\n")
        self.indent += "  "
        return Opened(self, tags)

    def leaf(self, tag, text, **attributes):
        self.file.write(f"{self.indent}<{tag}{written(attributes)}>{escape(str(text))}</{tag}>\n")

    def lines(self, lines):
        """Lines that were written before."""
        self.file.writelines(f"{self.indent}{line}\n" for line in lines)

    def name(self, text):
        self.leaf("SHORT-NAME", text)

    def ref(self, tag, dest, path):
        """A reference to an element of the kind `dest`."""
        self.leaf(tag, path, DEST=dest)

    def told(self, rows):
        """What AUTOSAR has no words for: special data of this program, as pairs of a key and a text."""
        if rows:
            with self.of("ADMIN-DATA", "SDGS", "SDG", GID="slotplan"):
                for key, text in rows:
                    self.leaf("SD", text, GID=key)


class Opened:
    """Elements whose ends are still to be written."""

    def __init__(self, markup, tags):
        self.markup, self.tags = markup, tags

    def __enter__(self):
        return self

    def __exit__(self, *_):
        markup = self.markup
        for tag in reversed(self.tags):
            markup.indent = markup.indent[:-2]
            markup.file.write(f"{markup.indent}</{tag}>\n")


def lines_of(work):
    """The lines that a call writes to a markup."""
    file = io.StringIO()
    work(Markup(file))
    return file.getvalue().splitlines()


def written(attributes):
    return "".join(f" {key}={quoteattr(text)}" for key, text in attributes.items())
