"""Rows and verdicts, as docs/MODULES.md has their JSON: written from what a row expects, never from what the program prints."""

from collections import namedtuple

from form import HERE, STAGES

# A row: what it is called, its document, the verdict that is expected of it, and whether it would be accepted on a target with
# all capabilities.
Row = namedtuple("Row", "name document verdict accepted_with_all")

# Behind the document and the verdict of a row that is refused for a missing capability alone.
WITH_ALL = (True,)

NOT_FIT = {"refused": {"at": "NotFit", "fault": None, "spans": []}}


def ok(functions=(), entry_points=()):
    """Accepted: the stages of each function, and what is told of each entry point."""
    return {"ok": {"functions": list(functions), "entry_points": list(entry_points)}}


def entry(stages=STAGES, uses=(), dual_source_blending=False):
    """What is told of an entry point."""
    return {"stages": stages, "dual_source_blending": dual_source_blending, "uses": list(uses)}


def refused(at, fault, spans=()):
    return {"refused": {"at": at, "fault": fault, "spans": [list(span) for span in spans]}}


def in_global(index, fault):
    return refused({"Global": index}, fault)


def in_function(index, fault, *spans):
    return refused({"Function": index}, fault, spans)


def in_entry_point(index, fault):
    """A fault of an entry point; one of its function stands where statements are."""
    is_in_function = isinstance(fault, dict) and "Function" in fault
    return refused({"EntryPoint": index}, fault, [HERE] if is_in_function else [])


def not_in_scope(handle):
    return {"Expression": {"handle": handle, "source": "NotInScope"}}


def last_function(module, outcome, span=HERE):
    """The verdict of a module whose last function has an outcome: a list of stages, in which it may run, or a fault, at a place
    or at none. The functions before it may run in all stages."""
    last = len(module.parts["functions"]) - 1
    if isinstance(outcome, list):
        return ok([STAGES] * last + [outcome])
    return in_function(last, outcome, *([] if span is None else [span]))
