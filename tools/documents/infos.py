"""Rows of what is computed of types: which flags each has, and how it is aligned. Documents without facts, whose verdicts are
worked out from docs/TYPES.md.

A type that isn't well formed has bad layouts of its own, and no flag. Of any other a global in a space that asks for a flag which
it lacks is refused with all that it has. One that no space refuses is a global in three, an argument of a function, and an input
at a location, which alone takes it or doesn't. How it is aligned is shown by a struct that holds it there, and by one that holds
it half as far from its beginning, and isn't well formed."""

import form as f
import verdicts
from computed import IN_UNIFORM, lacking, of_global, spoilt, struct
from form import BOOL, F32, FLOAT, I32, SINT, TYPE_FLAGS, U32, UINT
from module import Module, function
from statements import rows_of
from typed import document
from verdicts import in_entry_point

STORED = f.storage("LOAD")
IN_STORAGE, IN_WORK_GROUP = ["DATA", "HOST_SHAREABLE", "CREATION_RESOLVED"], ["DATA", "SIZED"]
UNSHARED = f.without(TYPE_FLAGS, "IO_SHAREABLE")
OF_BOOLS = f.without(UNSHARED, "HOST_SHAREABLE")
OF_ATOMICS = ["DATA", "SIZED", "HOST_SHAREABLE", "CREATION_RESOLVED"]
OF_POINTERS = ["SIZED", "COPY", "CREATION_RESOLVED"]
PASSED_POINTERS = [*OF_POINTERS, "ARGUMENT"]
OF_RESOURCES = ["CREATION_RESOLVED", "ARGUMENT"]
OF_QUERIES = ["DATA", "SIZED", "CREATION_RESOLVED", "CONSTRUCTIBLE"]


def of(kind, width):
    return f.scalar_of(kind, width)


def not_well_formed(ty, in_uniform=False):
    """In storage its layout is bad, and so in a uniform buffer; elsewhere it lacks all."""
    rows = [of_global(STORED, ty, spoilt(STORED, 0)), of_global("WorkGroup", ty, lacking(IN_WORK_GROUP, []), None)]
    return rows + [of_global("Uniform", ty, spoilt("Uniform", 0))] * in_uniform


def seen(ty, flags, space=STORED, required=None):
    """A global of a type that has these flags, in a space that asks for another."""
    asked = IN_STORAGE if required is None else required
    return [of_global(space, ty, lacking(asked, flags), None if space == "WorkGroup" else 0)]


def everywhere(ty, is_shared, interpolation="Flat", space="Immediate"):
    """A type in three spaces, as an argument, and as an input, which it is or is refused for."""
    module = Module(ty)
    own = module.type(ty)
    module.global_(space, own, 0 if space == "Uniform" else None)
    module.global_(STORED, own, 1)
    module.global_("Private", own)
    module.function(function(arguments=[(own, None)]))
    module.entry_point("Fragment", function(arguments=[(own, f.location(0, interpolation))]))
    if not is_shared:
        return [(document(module), in_entry_point(0, {"Argument": [0, {"NotIOShareableType": own}]}))]
    return [(document(module), verdicts.ok([f.STAGES], [verdicts.entry(f.STAGES, [[], [], []])]))]


def aligned(ty, size, alignment):
    """A member of the memory of a work group at its alignment, and, where that is more than 1, at half of it."""
    span = alignment + -(-size // alignment) * alignment
    rows = [of_global("WorkGroup", struct(span, (ty, alignment)), None, None)]
    if alignment > 1:
        rows.append(of_global("WorkGroup", struct(span, (ty, alignment // 2)), lacking(IN_WORK_GROUP, []), None))
    return rows


def values():
    vec2f, vec3f, bools = f.vector("Bi", FLOAT), f.vector("Tri", FLOAT), f.vector("Quad", f.BOOLEAN)
    matrix, half = f.matrix("Quad", "Bi", FLOAT), f.scalar(of("Float", 2))
    bad = [
        f.scalar(of("Bool", 4)), f.scalar(of("Sint", 2)), f.scalar(of("Float", 1)), f.scalar(of("AbstractInt", 8)),
        f.vector("Quad", of("Sint", 2)), f.matrix("Bi", "Bi", SINT),
    ]
    return [
        *seen(BOOL, OF_BOOLS), *aligned(BOOL, 1, 1),
        *everywhere(I32, True), *aligned(I32, 4, 4),
        *everywhere(f.scalar(f.WIDE), True), *aligned(f.scalar(f.WIDE), 8, 8),
        *everywhere(half, True, "Perspective", "Uniform"), *aligned(half, 2, 2),
        *everywhere(vec2f, True, "Perspective"), *aligned(vec2f, 8, 8),
        *everywhere(vec3f, True, "Perspective"), *aligned(vec3f, 12, 16),
        *seen(bools, OF_BOOLS), *aligned(bools, 4, 4),
        *everywhere(matrix, False), *aligned(matrix, 32, 8),
        *[row for ty in bad for row in not_well_formed(ty)],
    ]


def others():
    cooperative = lambda scalar: {"CooperativeMatrix": {"scalar": scalar, "detail": 0}}
    pointer = lambda space: {"ValuePointer": {"size": None, "scalar": FLOAT, "space": space}}
    sampled = lambda kind: f.image({"Sampled": {"kind": kind, "multi": False}})
    atomics = [(f.atomic(UINT), 4), (f.atomic(of("Sint", 8)), 8), (f.atomic(FLOAT), 4)]
    return [
        *seen(cooperative(FLOAT), OF_BOOLS), *not_well_formed(cooperative(UINT)),
        *[row for ty, width in atomics
          for row in seen(ty, OF_ATOMICS, "Uniform", IN_UNIFORM) + aligned(ty, width, width)],
        *not_well_formed(f.atomic(f.DOUBLE)),
        *seen(pointer("Function"), PASSED_POINTERS), *seen(pointer("WorkGroup"), PASSED_POINTERS),
        *seen(pointer("Uniform"), OF_POINTERS),
        *seen(sampled("Float"), OF_RESOURCES), *not_well_formed(sampled("Bool")),
        *seen(f.storage_image("R32Uint", ["LOAD"]), OF_RESOURCES), *seen(f.sampler(), OF_RESOURCES),
        *seen(f.ray_query(), OF_QUERIES),
    ]


def in_uniform(ty, outcome, span=96):
    """A member of a uniform buffer at 16 bytes, and at 8, where it isn't as aligned as there is asked for."""
    holds = lambda offset: struct(span, (ty, offset))
    return [of_global("Uniform", holds(16), outcome), of_global("Uniform", holds(8), spoilt("Uniform", 2))]


def arrays():
    pending = {"Array": {"base": U32, "size": {"Pending": 0}, "stride": 4}}
    dynamic = f.array(U32, 0, 32)
    large = f.array(U32, 65536, 65532)
    return [
        *everywhere(f.array(U32, 4), False), *aligned(f.array(U32, 4), 16, 4),
        *everywhere(f.array(U32, 4, 16), False, space="Uniform"), *in_uniform(f.array(U32, 4, 16), None),
        *not_well_formed(f.array(U32, 4, 3), True), *not_well_formed(f.array(U32, 4, 6), True),
        *everywhere(large, False), of_global("Uniform", large, spoilt("Uniform", 1)),
        *not_well_formed(f.array(U32, 65536, 65536), True),
        *seen(pending, ["DATA", "SIZED", "COPY", "HOST_SHAREABLE", "ARGUMENT"]),
        of_global("Uniform", pending, spoilt("Uniform", 1)),
        *seen(dynamic, IN_STORAGE, "WorkGroup", IN_WORK_GROUP), *seen(dynamic, IN_STORAGE, "Uniform", IN_UNIFORM),
        *in_uniform(dynamic, lacking(IN_UNIFORM, IN_STORAGE)),
        of_global(STORED, struct(8, (dynamic, 4)), None), of_global(STORED, struct(8, (dynamic, 2)), spoilt(STORED, 0)),
        *seen(f.pointer(U32, "Function"), PASSED_POINTERS), *seen(f.pointer(U32, "Uniform"), OF_POINTERS),
        *seen(f.pointer(U32, "Function"), PASSED_POINTERS, "Uniform", IN_UNIFORM),
        *seen(f.pointer(U32, "Uniform"), OF_POINTERS, "Uniform", IN_UNIFORM),
    ]


def structs():
    rows = []
    for good in (struct(4, (U32, 0)), struct(8, (U32, 4)), struct(8, (U32, 0), (U32, 4))):
        rows += [
            *everywhere(good, False, space="Uniform"), *aligned(good, good["Struct"]["span"], 4), *in_uniform(good, None),
        ]
    for bad in (
        struct(8, (U32, 0), (U32, 2)), struct(8, (U32, 4), (U32, 0)), struct(4, (U32, 0), (U32, 4)),
        struct(10, (U32, 0), (U32, 4)), struct(4294967295, (U32, 4294967292)), struct(16),
    ):
        rows += not_well_formed(bad, True)
    return rows


def held():
    """Types that hold what nothing may hold."""
    return [row for ty in (
        f.array(f.sampler(), 2), struct(16, (f.sampler(), 0)), f.pointer(f.sampler(), "Private"), f.array(f.ray_query(), 2),
    ) for row in not_well_formed(ty)]


def infos():
    return rows_of("computed/infos", values() + others() + arrays() + structs() + held())
