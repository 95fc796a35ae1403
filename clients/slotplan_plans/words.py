"""The words that several commands have: where a plan is read, and by whose eyes."""
from decimal import Decimal, InvalidOperation

from .faults import Fault
from .files import key_in
from .sources import RegisterFile, Server


def add_source(parser, variant=True, supplier=True):
    """SOURCE and VARIANT, and how a source is read."""
    parser.add_argument("source", metavar="SOURCE", help="a register's file, or where its server is, as http://127.0.0.1:8080")
    if variant:
        parser.add_argument("variant", metavar="VARIANT")
    parser.add_argument("--program", metavar="PATH", default="slotplan", help="of a file: the program that reads it")
    if supplier:
        parser.add_argument("--supplier", metavar="NAME", help="of a file: what this supplier sees, in place of what the integrator sees")
    parser.add_argument("--key", metavar="FILE", help="of a server: the file whose first line is the key; - is standard input")


def source_of(given, asked=False):
    """Where the plan is read. A file is read without a key, and asked with one."""
    supplier = getattr(given, "supplier", None)
    if not is_server(given.source):
        if given.key and not asked:
            raise Fault("a file is read without --key; the address of a server begins with http:// or https://")
        return RegisterFile(given.source, given.program, supplier, key_in(given.key) if given.key else None)
    if supplier or not given.key:
        raise Fault("a server is asked with --key, and without --supplier: it tells what the key's owner sees")
    return Server(given.source, key_in(given.key))


def is_server(source):
    return source.startswith(("http://", "https://"))


def microseconds(text):
    """The length of a macrotick as a decimal number, or none."""
    if text is None:
        return None
    try:
        number = Decimal(text)
    except InvalidOperation:
        number = Decimal(0)
    if not number.is_finite() or not Decimal("0.001") <= number <= 1000:
        raise Fault(f"--macrotick: {text!a:.60} is no number of microseconds from 0.001 to 1000")
    return number
