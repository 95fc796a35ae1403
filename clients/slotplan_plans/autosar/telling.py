"""Special data of this program on an element of a file: rows of a key as they are to be."""
from .markup import lines_of
from .tree import plain


def tell(changes, element, key, texts):
    """The element has these texts by this key, and no others. Nothing changes where it has them."""
    data = element.find("ADMIN-DATA/SDGS")
    group = next((it for it in data if it.get("GID") == "slotplan"), None) if data is not None else None
    rows = [] if group is None else [it for it in group.findall("SD") if it.get("GID") == key]
    for row, text in zip(rows, texts):
        if plain(row.text) != text:
            changes.write(row, text)
    for row in rows[len(texts) :]:
        changes.remove(row)
    more = texts[len(rows) :]
    if more and group is not None:
        changes.add(group, (), lines_of(lambda out: [out.leaf("SD", text, GID=key) for text in more]))
    elif more:
        changes.add(element, ("ADMIN-DATA", "SDGS"), lines_of(lambda out: group_of(out, key, more)))


def group_of(out, key, texts):
    with out.of("SDG", GID="slotplan"):
        for text in texts:
            out.leaf("SD", text, GID=key)
