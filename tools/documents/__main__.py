"""Writes rows of the check lists as documents: python3 tools/documents [--check]

Each row is a document in crates/naga_judge/stdin, and the verdict that is expected of it stands at the same line of
crates/naga_judge/stdout: what the row expects, with the place that tools/documents/places.py gives (and of NotFit the misfit that
tools/documents/misfits.py gives); what the rows are called stands in tools/documents/rows (docs/lab/CASES.md has which tests repeat them).
The documents of rows of naga_check and of examples/, with an unreadable one behind them, stand in front and stay as they are.
Which rows change where a capability is taken away stands in tools/settings.expected. With --check nothing is written, and the
status is 1 where a file isn't what would be written.
"""

import json
import pathlib
import sys

import capabilities
import computed
import entries
import fits
import forms
import functions
import infos
import modules
import needs
import operators
import places
import program
import rules
import shaders
import statements
import table
import typed
import unfit
import unshown

# How many documents stand in front.
FIRST = {"program": 77, "examples": 8, "unreadable": 1}

HERE = pathlib.Path(__file__).resolve().parent
JUDGE = HERE.parent.parent / "crates" / "naga_judge"

TABLES = [
    program.operands, program.skipped,
    statements.stores, statements.atomics, statements.subgroups, statements.places, statements.skipped, statements.operands,
    statements.rays,
    functions.declarations, functions.steps, functions.settings, functions.typed, functions.globals_, functions.recorded,
    entries.faults, entries.order, entries.meshes, entries.stages, entries.worked, entries.kept,
    modules.modules, modules.recorded, modules.fault_table,
    rules.built_ins, rules.interpolations, rules.items, rules.globals_, capabilities.needing,
    unshown.unshown, forms.forms, program.flags, fits.unfit, fits.switches, unfit.misfits, shaders.shaders, shaders.mistakes,
    typed.accesses, typed.functions, typed.cooperatives, computed.uses, computed.stages, computed.types, computed.meshes,
    operators.operations, operators.image_operations, infos.infos,
]


def line_of(document):
    """The line of a document, where it isn't given as a text."""
    return document if isinstance(document, str) else json.dumps(document, separators=(",", ":"))


def line_of_verdict(verdict):
    """The line of a verdict: of its texts only what JSON asks for has an escape."""
    return json.dumps(verdict, separators=(",", ":"), ensure_ascii=False)


def files():
    """What stands in each of the files."""
    rows = [row for table in TABLES for row in table()]
    first = sum(FIRST.values())
    names = [f"{title} {number}" for title, count in FIRST.items() for number in range(1, count + 1)]
    standing = [(JUDGE / name).read_text(encoding="utf-8").splitlines()[:first] for name in ("stdin", "stdout")]
    accepted = [(name, json.loads(line)) for name, line, verdict in zip(names, *standing) if verdict.startswith('{"ok"')]
    accepted += [(row.name, row.document) for row in rows if row.accepted_with_all]
    documents = standing[0] + [line_of(row.document) for row in rows]
    due = [json.loads(line) for line in standing[1]] + [row.verdict for row in rows]
    written = {
        JUDGE / "stdin": documents,
        JUDGE / "stdout": [line_of_verdict(places.told(*it)) for it in zip(documents, due)],
        HERE / "rows": [f"{number} {name}" for number, name in enumerate(names + [row.name for row in rows], 1)],
        HERE.parent / "settings.expected": table.table_of([(name, needs.changes_of(made)) for name, made in accepted]),
    }
    return {path: "".join(line + "\n" for line in lines) for path, lines in written.items()}


def main():
    stale = [path for path, text in files().items() if not path.exists() or path.read_text(encoding="utf-8") != text]
    if "--check" in sys.argv[1:]:
        for path in stale:
            print(f"{path}: not what the rows say")
        return 1 if stale else 0
    for path, text in files().items():
        path.write_text(text, encoding="utf-8")
    return 0


if __name__ == "__main__":
    sys.exit(main())
