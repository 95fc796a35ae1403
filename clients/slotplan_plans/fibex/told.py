"""What FIBEX has no words for, in an element's description: `slotplan: supplier s1; grant 7 A`. Other tools show it as the text that it is."""

HEAD = "slotplan: "


def text_of(rows):
    """The description that tells these pairs of a key and a text."""
    return HEAD + "; ".join(f"{key} {text}" for key, text in rows)


def rows_of(text):
    """The pairs that a description tells; none where it is somebody else's."""
    if not text.startswith(HEAD):
        return []
    return [tuple(row.strip().partition(" ")[::2]) for row in text.removeprefix(HEAD).split(";")]
