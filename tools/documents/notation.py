"""The cases of naga_check that stand in tools/cases.d."""

import pathlib

CASES = pathlib.Path(__file__).resolve().parent.parent / "cases.d"


def bytes_of(text):
    """An input with its escapes, those of Python, as bytes."""
    return text.encode().decode("unicode_escape").encode("latin-1")


def rows_of(title=None):
    """Inputs and what stands behind them: of one part, or of all but that of flags."""
    for part in CASES.read_text(encoding="utf-8").split("\n# ")[1:]:
        name, _, lines = part.partition("\n")
        if name == title or title is None and name != "flags":
            yield from (line.split(" => ") for line in lines.splitlines() if line)


def cases():
    """Inputs, each with its line."""
    return [(bytes_of(given), due) for given, due in rows_of()]


def flags():
    """Inputs that are judged with options too: each with its line, and with that without EXPRESSIONS."""
    found = [(bytes_of(given), *due.split(" | ")) for given, due in rows_of("flags")]
    return [(given, due, *(others or [due])) for given, due, *others in found]
