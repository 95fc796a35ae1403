"""What a cell says: a name, a number, channels, the order of a signal. What says nothing sure is a fault, never a guess."""
import re
from fractions import Fraction

from .arranging import NAME
from .cells import Kind, bare, shown
from .faults import Fault

NUMBER = re.compile("([0-9]{1,15})(?:([.,])([0-9]{0,20}))?(?:[eE][+]?([0-9]{1,2}))?")
# What may stand between digits in threes, but for points and commas.
BETWEEN = "[ \u00a0\u2009\u202f'\u2019]"
IN_THREES = re.compile(f"[0-9]{{1,3}}(?:{BETWEEN}[0-9]{{3}})+")
CHANNELS = {"a": "A", "b": "B", "ab": "AB", "ba": "AB"}
ORDERS = {
    **dict.fromkeys(("little", "intel", "little endian", "le"), "little"),
    **dict.fromkeys(("big", "motorola", "big endian", "be"), "big"),
}
# The numbers that some register takes in each column.
RANGES = {"slot": (1, 1023), "base": (0, 63), "repetition": (1, 64), "start": (0, 2031), "length": (1, 64)}


def value(column, cell):
    """What a cell of this column says, as the register reads it."""
    text = said(column, cell)
    if column in RANGES:
        return whole(column, text, cell.kind)
    return {"channels": channels, "order": order}.get(column, name)(column, text)


def said(column, cell):
    """The text of a cell that has one which can be read."""
    text = bare(cell)
    if cell.kind is Kind.FAULT:
        raise Fault(f"the {column} is {shown(text)}")
    if cell.kind is Kind.MERGED:
        raise Fault(f"there is no {column}: its cell is merged with others, and has one value for all of them")
    if cell.kind is Kind.DATE:
        raise Fault(f"the {column} '{shown(text)}' is a date or a time: give the column the format Text, and write it again")
    if not text:
        raise Fault(f"there is no {column}")
    return text


def name(column, text):
    if not NAME.fullmatch(text):
        raise Fault(f"the {column} '{shown(text)}' is no name, which is 1 to 32 letters from A to Z, digits and underscores, a letter first")
    return text


def channels(_, text):
    found = CHANNELS.get(re.sub(r"[\s+&/,;]", "", text).lower())
    if not found:
        raise Fault(f"the channels '{shown(text)}' are none of A, B and AB")
    return found


def order(_, text):
    found = ORDERS.get(re.sub(r"[\s_-]+", " ", text).lower())
    if not found:
        raise Fault(f"the order '{shown(text)}' is neither little (Intel) nor big (Motorola)")
    return found


def whole(column, text, kind=Kind.TEXT):
    """A whole number in the column's range, as 4, 4.00, 4,0 or 0x10."""
    found, (least, most) = number(column, text, kind), RANGES[column]
    if found.denominator != 1 or not least <= found <= most:
        raise Fault(f"the {column} '{shown(text)}' is no whole number from {least} to {most}")
    return int(found)


def number(column, text, kind=Kind.TEXT):
    """A number that is not below 0. Of three digits behind a point or a comma nobody knows what it divides, but in a workbook's number."""
    if re.fullmatch("0x[0-9a-fA-F]{1,8}", text):
        return Fraction(int(text, 16))
    found = NUMBER.fullmatch(re.sub(BETWEEN, "", text) if IN_THREES.fullmatch(text) else text)
    if not found:
        raise Fault(f"the {column} '{shown(text)}' is no number")
    before, mark, behind, power = found.groups()
    if kind is Kind.TEXT and mark and len(behind) == 3 and 0 < len(before.lstrip("0")) < 4 and not power:
        told = f"{before}{behind} or {before}.{behind}"
        raise Fault(f"the {column} '{text}' may be {told}: show it without a mark for thousands, and with fewer decimals")
    return (int(before) + Fraction(int(behind or 0), 10 ** len(behind or ""))) * 10 ** int(power or 0)
