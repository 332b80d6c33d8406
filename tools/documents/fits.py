"""Rows of what doesn't fit: a handle that names nothing, in each place that the tests of conditions look at (docs/CHECKS.md, the
steps of a module); of places that no test looks at; and of Switches of ten thousand cases."""

import json

import form as f
import verdicts
from entry import COLOR, COUNTS, INDICES, POSITION
from form import STAGES, U32, UNSHARED
from module import Module, document, function
from plain import MOST_U32 as GREATEST, info_fact, uses_of
from statements import one_function, rows_of


# Places of a module but inside a body.

# How many types the module has, and how many globals and global expressions.
TYPES, GLOBALS, EXPRESSIONS = 8, 3, 3
LAST = TYPES - 1


def parts():
    """A module that is accepted, with a handle in each place but inside a body: but for a few, the last that fits."""
    pending = {"size": {"Pending": 0}}
    module = Module(
        COLOR, f.pointer(0, "Private"), {"Array": {"base": 1, **pending, "stride": 4}}, {"BindingArray": {"base": 2, **pending}},
        COUNTS,
    )
    module.type(f.struct([INDICES], 16), UNSHARED)
    module.type(f.struct([POSITION], 16), UNSHARED)
    module.type(U32, f.info(storage=(LAST, 0), uniform=(LAST, 0)))
    module.ray_descriptor(LAST)
    module.parts["constants"].append({"ty": LAST})
    module.override(LAST)
    module.global_("Private", LAST, init=EXPRESSIONS - 1)
    module.global_("TaskPayload", LAST)
    module.global_("WorkGroup", LAST)
    for expression in (f.zero(LAST), f.unary(0), {"Override": 0}):
        module.global_expression(expression, LAST)
    module.global_types[1] = {"Value": f.pointer(LAST, "Private")}
    module.function(function([f.zero(LAST)], (), [(LAST, 0)], [(LAST, None)], (LAST, None)))
    return module


def whole():
    """The document of this module and of a mesh entry point."""
    module = parts()
    mesh = {
        "topology": "Triangles", "max_vertices": 3, "max_vertices_override": EXPRESSIONS - 1, "max_primitives": 1,
        "max_primitives_override": EXPRESSIONS - 1, "vertex_output_type": 6, "primitive_output_type": 5,
        "output_variable": GLOBALS - 1,
    }
    taking = function(arguments=[(LAST, f.built_in("LocalInvocationIndex"))])
    module.entry_point("Mesh", taking, [1, 1, 1], mesh, payload=1)
    implied = {**mesh, "max_vertices_override": None, "max_primitives_override": None}
    return document(module, analysis={"implied": implied, "overrides": [0, 0], "fault": None})


WHOLE = verdicts.ok([STAGES], [verdicts.entry(uses=[[], ["READ"], ["READ"]])])

# Each place that is looked at, and the first handle that doesn't fit there. A type and an operand may name earlier ones alone.
PLACES = [
    ("module/types/1/inner/Pointer/base", 1),
    ("module/types/2/inner/Array/base", 2),
    ("module/types/3/inner/BindingArray/base", 3),
    ("module/types/5/inner/Struct/members/0/ty", 5),
    ("module/special_types/ray_desc", TYPES),
    ("module/constants/0/ty", TYPES),
    ("module/overrides/0/ty", TYPES),
    ("facts/type_infos/7/storage_layout/Err/0", TYPES),
    ("facts/type_infos/7/uniform_layout/Err/0", TYPES),
    ("module/global_variables/0/ty", TYPES),
    ("module/global_variables/0/init", EXPRESSIONS),
    ("module/global_expressions/1/Unary/operands/0", 1),
    ("facts/global_types/0/Handle", TYPES),
    ("facts/global_types/1/Value/Pointer/base", TYPES),
    ("module/functions/0/arguments/0/ty", TYPES),
    ("module/functions/0/result/ty", TYPES),
    ("module/functions/0/local_variables/0/ty", TYPES),
    ("module/functions/0/local_variables/0/init", 1),
    ("module/entry_points/0/function/arguments/0/ty", TYPES),
    ("module/entry_points/0/task_payload", GLOBALS),
    ("module/entry_points/0/mesh_info/max_vertices_override", EXPRESSIONS),
    ("module/entry_points/0/mesh_info/max_primitives_override", EXPRESSIONS),
    ("module/entry_points/0/mesh_info/vertex_output_type", TYPES),
    ("module/entry_points/0/mesh_info/primitive_output_type", TYPES),
    ("module/entry_points/0/mesh_info/output_variable", GLOBALS),
]

# The places that no test looks at: which override a size is of, and what a global expression names besides operands.
UNSEEN = [
    "module/types/2/inner/Array/size/Pending",
    "module/types/3/inner/BindingArray/size/Pending",
    "module/global_expressions/0/ZeroValue",
]


def with_handle(made, place, handle):
    """A copy of a document with this handle at a place."""
    copied = json.loads(json.dumps(made))
    *steps, last = [int(step) if step.isdigit() else step for step in place.split("/")]
    held = copied
    for step in steps:
        held = held[step]
    assert isinstance(held[last], int) and held[last] != handle
    held[last] = handle
    return copied


def places():
    made = whole()
    found = [(made, WHOLE)] + [(with_handle(made, place, GREATEST), WHOLE) for place in UNSEEN]
    for place, first in PLACES:
        found += [(with_handle(made, place, handle), verdicts.NOT_FIT) for handle in (first, GREATEST)]
    return found


# Expressions and statements, each of which has a handle that doesn't fit in one place, and 0 in all others.

def behind(made, *of_module):
    """The document of a module of one u32 of each kind and of a function of one, with this function behind it, and with these
    global expressions behind its own. All expressions are u32."""
    module = Module(U32)
    module.parts["constants"].append({"ty": 0})
    module.override(0)
    module.global_("Private", 0)
    for expression in (f.zero(0), *of_module):
        module.global_expression(expression, 0)
    module.function(function(arguments=[(0, None)], result=(0, None)))
    module.function(made)
    types = [{"Handle": 0}] * len(made["expressions"])
    return document(module, functions=[info_fact([], [[]]), info_fact(types, uses_of(module.parts, made))])


def in_function(*expressions, body=()):
    """With these behind a first expression, and with a local."""
    return behind(function([f.zero(0), *expressions], [f.here(statement) for statement in body], [0]))


def in_module(*expressions):
    return behind(function(), *expressions)


BOTH = verdicts.ok([STAGES, STAGES])

# Expressions that name something besides operands, and the first handle that names nothing there.
NAMING = [
    (lambda named: {"Constant": named}, 1), (lambda named: {"Override": named}, 1), (f.zero, 1), (f.global_variable, 1),
    (f.local_variable, 1), (f.call_result, 2), (lambda ty: f.atomic_result(ty, False), 1),
    (lambda ty: {"WorkGroupUniformLoadResult": {"ty": ty}}, 1), (f.operation_result, 1), (lambda ty: f.compose(ty, 0, 0), 1),
]

# Expressions with operands, and how many they are given.
LISTED = [
    "Splat", "Swizzle", "ImageSample", "ImageLoad", "ImageQuery", "Unary", "Binary", "Select", "Derivative", "Relational", "Math",
    "As", "ArrayLength", "RayQueryGetIntersection", "RayQueryVertexPositions", "CooperativeLoad", "CooperativeMultiplyAdd",
]
OPERANDS = [
    (lambda base, index: {"Access": {"base": base, "index": index}}, 2),
    (lambda base: {"AccessIndex": {"base": base, "index": 0}}, 1),
    (f.load, 1),
    (lambda *operands: f.compose(0, *operands), 2),
    *[(lambda *operands, kind=kind: {kind: {"operands": list(operands), "detail": 0}}, 2) for kind in LISTED],
]


def fitting(makers):
    return [make(*[0] * count) for make, count in makers]


def unfit_each(makers):
    """Of each maker what it makes with one handle that doesn't fit, in each of so many places: 1, or the greatest."""
    return [
        make(*[handle if at == place else 0 for at in range(count)])
        for make, count in makers for place in range(count) for handle in (1, GREATEST)
    ]


def expressions():
    """Of functions, where all that is wrong with those that fit is a result that isn't filled, and of modules."""
    named = [make(0) for make, _ in NAMING]
    with_operands = fitting(OPERANDS)
    unfilled = verdicts.in_function(1, {"UnvisitedExpression": 1 + named.index(f.call_result(0))})
    unfit = unfit_each(OPERANDS)
    naming_nothing = [make(handle) for make, first in NAMING for handle in (first, GREATEST)]
    return [
        (in_function(*named, *with_operands), unfilled),
        *[(in_function(expression), verdicts.NOT_FIT) for expression in naming_nothing + unfit],
        (in_module(*named, *with_operands), BOTH),
        *[(in_module(make(GREATEST)), BOTH) for make, _ in NAMING],
        *[(in_module(expression), verdicts.NOT_FIT) for expression in unfit],
    ]


# Statements.

def exchange(compared):
    return {"Exchange": {"compare": compared}}


def image_exchange(to, coordinate, array_index, compared, value):
    return {"ImageAtomic": {
        "image": to, "coordinate": coordinate, "array_index": array_index, "fun": exchange(compared), "value": value,
    }}


def query(of, fun):
    return {"RayQuery": {"query": of, "fun": fun}}


def begin(structure, descriptor):
    return query(0, {"Initialize": {"acceleration_structure": structure, "descriptor": descriptor}})


def returning(value):
    return [f.return_(value)]


# Modes of a gather with an index, and what a ray query does without naming an expression.
MODES = ["Broadcast", "Shuffle", "ShuffleDown", "ShuffleUp", "ShuffleXor", "QuadBroadcast"]
DONE = ["ConfirmIntersection", "Terminate"]

# Statements with handles, and how many they are given. Those that hold others have blocks that return the first of them.
STATEMENTS = [
    (f.return_, 1),
    (lambda pointer, value: {"Store": {"pointer": pointer, "value": value}}, 2),
    (f.image_store, 4),
    (lambda pointer, compared, value, result: f.atomic_of(exchange(compared), pointer, value, result), 4),
    (image_exchange, 5),
    (f.uniform_load, 2),
    (f.ballot, 2),
    (lambda argument, result: f.collective("Add", "Reduce", argument, result), 2),
    (lambda argument, result: f.gather("BroadcastFirst", argument, result), 2),
    (f.cooperative_store, 2),
    (f.trace_ray, 3),
    *[(lambda index, mode=mode: f.gather({mode: index}, 0, 0), 1) for mode in MODES],
    (begin, 2),
    (lambda result: f.proceed(0, result), 1),
    (lambda distance: query(0, {"GenerateIntersection": {"hit_t": distance}}), 1),
    *[(lambda of, fun=fun: query(of, fun), 1) for fun in DONE],
    (lambda callee, argument, result: f.call(callee, [argument], result), 3),
    (lambda value: f.block(*returning(value)), 1),
    (lambda first, second, condition: f.if_(condition, returning(first), returning(second)), 3),
    (lambda value, selector: f.switch(selector, f.case("Default", returning(value))), 2),
    (lambda first, second, break_if: f.loop(returning(first), returning(second), break_if), 3),
]


def bodies():
    """Behind one expression, and one function. The ends of an Emit's range lie in order within that expression. Of all kinds of
    statements that fit the first is refused, a Return. The direction of a QuadSwap is no handle."""
    put_again = verdicts.in_function(1, {"ExpressionAlreadyInScope": 0}, f.HERE)
    emits = [((0, 0), BOTH), ((1, 1), BOTH), ((0, 1), put_again)] + [
        (ends, verdicts.NOT_FIT) for ends in ((1, 0), (2, 1), (0, 2), (GREATEST, 0), (0, GREATEST))
    ]
    returned = verdicts.in_function(1, {"InvalidReturnType": {"expression": 0, "expected_ty": None}}, f.HERE)
    swap = f.gather({"QuadSwap": GREATEST}, 0, 1)
    return [
        *[(in_function(body=[f.emit(*ends)]), verdict) for ends, verdict in emits],
        (in_function(body=fitting(STATEMENTS)), returned),
        *[(in_function(body=[statement]), verdicts.NOT_FIT) for statement in unfit_each(STATEMENTS)],
        (in_function(f.operation_result(0), body=[swap]), BOTH),
    ]


def unfit():
    return rows_of("fits", places() + expressions() + bodies())


# Switches, in which so many cases have a value of their own, which rise, and one stands behind them.

DISTINCT = 9999


def switch_row(last, outcome):
    cases = [f.case({"U32": value}) for value in range(DISTINCT)] + [f.case(last)]
    return one_function(Module(), function([f.literal(f.UINT)], [f.here(f.switch(0, *cases))]), outcome)


def switches():
    """The last is the default; or it has the first value again, or that of the case before it."""
    repeated = [{"U32": value} for value in (0, DISTINCT - 1)]
    return rows_of("switches", [
        switch_row("Default", STAGES),
        *[switch_row(value, {"ConflictingSwitchCase": value}) for value in repeated],
    ])
