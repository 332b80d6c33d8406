"""The table of capabilities: which rows change where one is taken away, and to what verdict."""

import json

from form import CAPABILITIES


def told(verdict):
    """A verdict in short: where the fault is, and the fault with its places."""
    refused = verdict["refused"]
    place = " ".join(f"{kind} {index}" for kind, index in refused["at"].items())
    spans = " ".join(f" at {start}..{end}" for start, end in refused["spans"])
    return f"{place} {json.dumps(refused['fault'], separators=(',', ':'))}{spans}"


def ranges(numbers):
    """Numbers, in order, with those that follow each other joined."""
    found = []
    for number in numbers:
        if found and found[-1][1] == number - 1:
            found[-1][1] = number
        else:
            found.append([number, number])
    return " ".join(str(first) if first == last else f"{first}-{last}" for first, last in found)


def rows_told(names):
    """Rows by their names, those of one table together."""
    tables = {}
    for name in names:
        table, number = name.rsplit(" ", 1)
        tables.setdefault(table, []).append(int(number))
    return ", ".join(f"{table} {ranges(numbers)}" for table, numbers in tables.items())


def table_of(changes):
    """The lines of the table, of pairs of a row's name and the verdicts that it changes to by capability."""
    lines = []
    for capability in CAPABILITIES:
        by_verdict = {}
        for name, found in changes:
            if capability in found:
                by_verdict.setdefault(told(found[capability]), []).append(name)
        lines += [f"{capability} | {verdict} | {rows_told(names)}" for verdict, names in by_verdict.items()]
        if not by_verdict:
            lines.append(f"{capability} | nothing changes")
    return lines
