"""Rows for the register, and the same rows as people's spreadsheets save them: other marks, letters, forms of numbers, rows and columns beside."""
import csv
import io

from .workbook import open_workbook, workbook

COLUMNS = {
    "frames": ("frame", "node"),
    "placements": ("frame", "node", "slot", "channels", "base", "repetition"),
    "signals": ("frame", "signal", "start", "length", "order"),
    "wishes": ("frame", "node", "channels", "repetition"),
}
OTHER_NAMES = {
    "frame": "Frame Name", "node": "ECU", "slot": "Slot-ID", "channels": "Channel", "base": "Base_Cycle", "repetition": "Cycle Repetition",
    "signal": "SIGNAL NAME", "start": "Start bit", "length": "bit length", "order": "Byte Order",
}
MARKS = ",", ";", "\t"
CODES = "utf-8", "utf-8-sig", "utf-16", "utf-16-le", "cp1252"
ENDS = "\n", "\r\n", "\r"


def rows_by_chance(dice, kind, count=None):
    """Rows of this kind that some register takes."""
    for number in range(dice.randrange(1, 12) if count is None else count):
        repetition = dice.choice((1, 2, 4, 5, 8, 10, 16, 20, 32, 40, 50, 64))
        values = {
            "frame": f"{dice.choice(('low_beam', 'F', 'x9'))}_{number}", "node": dice.choice(("lamp_unit", "N1")), "slot": dice.randrange(1, 1024),
            "channels": dice.choice(("A", "B", "AB")), "base": dice.randrange(repetition), "repetition": repetition,
            "signal": f"s{number}", "start": dice.randrange(2032), "length": dice.randrange(1, 65), "order": dice.choice(("little", "big")),
        }
        yield [str(values[name]) for name in COLUMNS[kind]]


def file_of(kind, rows):
    """The file that the register reads."""
    return "".join(f"{','.join(row)}\n" for row in (COLUMNS[kind], *rows))


def dressed_field(dice, name, text):
    """A field as somebody may write it."""
    if text.isdecimal():
        return dice.choice((text, text, f"{text}.00", f"{text},0", f" {text}", f"00{text}", f"{text}\u00a0"))
    if name == "order":
        return dice.choice((text, {"little": "Intel", "big": "Motorola"}[text], text.upper(), f"{text} endian", f"{text}_Endian"))
    if name == "channels":
        forms = {"AB": ("AB", "A+B", "a,b", "A / B", "BA", "ab")}
        return dice.choice(forms.get(text, (text, text.lower(), f"{text} ")))
    return dice.choice((text, text, f" {text} ", f"{text}\u200b"))


def dressed(dice, kind, rows):
    """The records of a sheet that has these rows."""
    names = list(COLUMNS[kind])
    dice.shuffle(names)
    beside = dice.choice(([], [], ["Bemerkung"], ["remark", "Nr"]))
    columns = names + beside
    dice.shuffle(columns)
    called = {name: dice.choice((name, name.upper(), f" {name.title()} ", OTHER_NAMES[name])) for name in names}
    blank = lambda: [""] * dice.randrange(len(columns) + 1)
    records = [["Lichtplan für KW47"]] * dice.randrange(2) + [blank()] * dice.randrange(2) + [[called.get(it, it) for it in columns]]
    for row in rows:
        records += [blank()] * (dice.random() < 0.1)
        values = dict(zip(COLUMNS[kind], row))
        records.append([dressed_field(dice, it, values[it]) if it in values else dice.choice(("", "für Müller", "3; 4")) for it in columns])
    if dice.random() < 0.3:
        numbers = [it for it in names if it in ("slot", "base", "repetition", "start", "length")]
        sums = {it: "14,00" for it in numbers[:1]}
        label = dice.choice(("Summe", "Total:", "Sum")) if columns[0] not in sums else "3"
        records.append([label if place == 0 and it not in sums else sums.get(it, "") for place, it in enumerate(columns)])
    return records + [blank()] * dice.randrange(3)


def saved(dice, records):
    """The bytes of a text with these records."""
    mark, code, end = dice.choice(MARKS), dice.choice(CODES), dice.choice(ENDS)
    text = io.StringIO(newline="")
    text.write(f"sep={mark}{end}" if dice.random() < 0.1 else "")
    csv.writer(text, delimiter=mark, lineterminator=end, quoting=dice.choice((csv.QUOTE_MINIMAL, csv.QUOTE_ALL))).writerows(records)
    # (none of the letters is missing in these codes but the one that is not seen)
    whole = text.getvalue()
    return (whole.replace("\u200b", "") if code == "cp1252" else whole).encode(code)


def packed(dice, records):
    """The bytes of a workbook with these records."""
    width = max(map(len, records))
    even = [[*record, *[""] * (width - len(record))] for record in records]
    return dice.choice((workbook, open_workbook))(even)
