"""Rows of what needs a capability and is accepted, as other rows mostly are not: for the table of capabilities (tools/settings)."""

import form as f
from entry import AT_FRAGMENT, entry_row
from form import STAGES
from module import Module, function
from statements import atomic_row, one_function, rows_of


def image_row(storage_format, of, fun):
    """An atomic operation on an image of a format, with a value of its scalar."""
    module = Module(f.storage_image(storage_format, ["LOAD", "STORE", "ATOMIC"]), f.vector("Bi", f.SINT))
    module.global_("Handle", 0, binding=0)
    expressions = [f.global_variable(0), f.zero(1), f.literal(of)]
    return one_function(module, function(expressions, [f.here(f.image_atomic(fun, 0, 1, 2))]), STAGES)


def needing():
    everything = f.CAPABILITIES
    alone = lambda fun: [f.here(f.atomic_of(fun, 0, 1, None))]
    filled = [f.here(f.atomic_of("Min", 0, 1, 2))]
    return rows_of("capabilities", [
        entry_row(AT_FRAGMENT.but(tests_depth=True)),
        atomic_row(everything, f.FLOAT, None, alone("Add"), STAGES, None),
        atomic_row(everything, f.WIDE, None, alone("Min"), STAGES, None),
        atomic_row(everything, f.WIDE, None, alone("Add"), STAGES, None),
        atomic_row(everything, f.WIDE, False, filled, STAGES, None),
        image_row("R32Uint", f.UINT, "Add"),
        image_row("R64Uint", f.WIDE, "Min"),
    ])
