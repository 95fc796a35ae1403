"""Manual pages of the program and of each of its commands, made of their help; and that of slotplan-plans, made of its own."""
import re

NAME = "slotplan"
PLANS = "slotplan-plans"


def roff(text):
    """The text as roff prints it letter by letter."""
    escaped = text.replace("\\", "\\e").replace("-", "\\-")
    return re.sub(r"^([.'])", r"\\&\1", escaped, flags=re.M)


def head(name, version, about):
    """How a page begins."""
    return f'.TH "{name.upper()}" 1 "" "{NAME} {version}" "User Commands"\n.SH NAME\n{roff(name)} \\- {roff(about)}\n'


def literal(text):
    """Lines that stay as they are."""
    return f".EX\n{roff(text)}\n.EE\n"


def paragraphs(text):
    return ".PP\n".join(f"{roff(it)}\n" for it in text.split("\n\n"))


def section(title, body):
    return f".SH {title}\n{body}" if body else ""


def tagged(place):
    """An argument or an option, and what it is for."""
    name = ", ".join(f"\\fB{roff(it)}\\fR" for it in (place.letter, place.option) if it)
    return f".TP\n{' '.join(it for it in (name, place.value and f'{chr(92)}fI{place.value}{chr(92)}fR') if it)}\n{roff(place.about)}\n"


def page(help, version, others):
    """The page of a command, or of the program."""
    name = f"{NAME}-{help.name}" if help.name else NAME
    about = help.about if help.name else "plans the static segment of a FlexRay bus"
    rows = "".join(f".TP\n\\fB{roff(NAME)}\\-{command}\\fR(1)\n{roff(text)}\n" for command, text in help.commands if command != "help")
    return (
        head(name, version, about)
        + section("SYNOPSIS", literal(help.usage))
        + section("DESCRIPTION", paragraphs("\n\n".join(it for it in ("" if help.name else help.about, help.notes) if it)) if help.notes else "")
        + section("COMMANDS", rows)
        + section("ARGUMENTS", "".join(map(tagged, help.arguments)))
        + section("OPTIONS", "".join(map(tagged, help.options)))
        + section("EXAMPLE", literal(help.example))
        + section("SEE ALSO", ", ".join(f"\\fB{roff(it)}\\fR(1)" for it in others if it != name) + "\n")
    )


def plans_page(texts, version):
    """The page of slotplan-plans: the help of the command itself, and of each of its commands, as they print it."""
    first, *behind = texts
    parts = "".join(f".SS {roff(text.split()[2])}\n{literal(text.strip())}" for text in behind)
    about = "plans of slotplan in the files of other tools, and registers that move"
    sections = {"DESCRIPTION": literal(first.strip()), "COMMANDS": parts, "SEE ALSO": f"\\fB{NAME}\\fR(1)\n"}
    return head(PLANS, version, about) + "".join(section(title, body) for title, body in sections.items())


def pages(helps, plans_texts, version):
    """Each page by its file's name."""
    of_commands = {f"{NAME}-{help.name}" if help.name else NAME: help for help in helps}
    made = {f"{name}.1": page(help, version, [NAME, PLANS] if help.name else [PLANS]) for name, help in of_commands.items()}
    return {**made, f"{PLANS}.1": plans_page(plans_texts, version)}
