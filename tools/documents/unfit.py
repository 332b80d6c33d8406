"""Rows of what doesn't fit beside a handle in its place: lengths, sizes, signatures of callees, which of several misfits is told,
and statements by their numbers; and of a module whose handles are the first that fit, or the last. Some misfits have their
sentence."""

import form as f
import verdicts
from form import U32
from module import Module, document, function
from plain import MOST_U32 as GREATEST
from statements import rows_of

# The handle in each place of a module but inside a body: the first, or the last that fits where another type does.
FIRST = dict.fromkeys([
    "pointer", "array", "binding_array", "member", "descriptor", "constant", "override", "storage", "uniform", "global",
    "initializer", "resolved", "pointed", "argument", "result", "local", "taken", "vertex", "primitive",
], 0)
LAST = {name: 4 for name in FIRST} | {"pointer": 0, "array": 1, "binding_array": 2, "member": 3, "initializer": 1}


def parts(handles):
    """A module with these handles, of five types, a global, two global expressions and a function."""
    pending = {"size": {"Pending": 0}}
    module = Module(
        U32, f.pointer(handles["pointer"], "Private"), {"Array": {"base": handles["array"], **pending, "stride": 4}},
        {"BindingArray": {"base": handles["binding_array"], **pending}},
    )
    bad_layouts = f.info(storage=(handles["storage"], 0), uniform=(handles["uniform"], 0))
    module.type(f.struct([(handles["member"], None)], 4), bad_layouts)
    module.ray_descriptor(handles["descriptor"])
    module.parts["constants"].append({"ty": handles["constant"]})
    module.override(handles["override"])
    module.global_("Private", handles["global"], init=handles["initializer"])
    module.global_expression(f.zero(0), handles["resolved"])
    module.global_expression(f.unary(0), 0)
    module.global_types[1] = {"Value": f.pointer(handles["pointed"], "Private")}
    arguments, result = [(handles["argument"], None)], (handles["result"], None)
    module.function(function([f.zero(0)], (), [(handles["local"], 0)], arguments, result))
    return module


def whole(handles=FIRST, change=None, *functions, **facts):
    """The document of this module with a mesh entry point, after a change, with functions behind its own."""
    module = parts(handles)
    for made in functions:
        module.function(made)
    mesh = {
        "topology": "Triangles", "max_vertices": 3, "max_vertices_override": 0, "max_primitives": 1, "max_primitives_override": 0,
        "vertex_output_type": handles["vertex"], "primitive_output_type": handles["primitive"], "output_variable": 0,
    }
    module.entry_point("Mesh", function(arguments=[(handles["taken"], None)]), [1, 1, 1], mesh, payload=0)
    if change is not None:
        change(module)
    return document(module, **facts)


# Changes of the module of first handles.

def without_last_info(module):
    module.infos.pop()


def without_last_type(module):
    module.global_types.pop()


def boundless_payload(module):
    """The global is a task payload, an array whose length an override gives."""
    module.parts["global_variables"] = []
    module.global_("TaskPayload", 2)


def caller_first(module):
    """Two functions, of which the first names the second, whose argument has no type."""
    module.parts["functions"] = [function([f.zero(0), f.call_result(1)]), function(arguments=[(9, None)])]


def array_of_queries():
    module = Module(f.ray_query(), f.binding_array(0))
    module.global_("Handle", 1)
    return document(module)


def numbered():
    """A block (0) with a Kill (1) and a loop (2) of four statements (3 to 6), and then a Return (7) of no expression."""
    return function(body=[f.block("Kill", f.loop(["Kill", "Kill"], ["Kill", "Kill"])), f.return_(5)])


# Misfits, each alone in a small module.

ZEROS = [f.zero(0)] * 7


def initializer_of_global_three():
    module = Module(U32)
    for init in (None, None, None, 2):
        module.global_("Private", 0, init=init)
    return document(module)


def operand_in_function_two():
    module = Module(U32)
    for expressions in ([], [], [*ZEROS, f.unary(9)]):
        module.function(function(expressions))
    return document(module)


def operand_of_the_module():
    module = Module(U32)
    for expression in (*ZEROS, {"Binary": {"operands": [0, 7], "detail": 0}}):
        module.global_expression(expression, 0)
    return document(module)


def argument_of_a_call():
    module = Module(U32)
    module.function(function())
    module.entry_point("Fragment", function(ZEROS, ["Kill", "Kill", "Kill", f.call(0, [0, 9])]))
    return document(module)


def range_past_its_end():
    module = Module(U32)
    module.function(function(ZEROS, [f.emit(0, 9)]))
    return document(module)


def size_of_global_one():
    module = Module(U32, f.F32, {"Array": {"base": 0, "size": {"Pending": 0}, "stride": 4}})
    module.global_("Private", 0)
    module.global_("TaskPayload", 2)
    return document(module)


# Documents that don't fit, each with its sentence, if one is asked for.
UNFIT = [
    (whole(change=without_last_info), "the list of type infos has 4 items, and 5 are wanted"),
    (whole(change=without_last_type), None),
    (whole(change=boundless_payload), None),
    (array_of_queries(), None),
    (whole(change=caller_first), None),
    (whole({**FIRST, "descriptor": GREATEST, "argument": GREATEST, "local": GREATEST}), None),
    (whole(FIRST, None, numbered()), None),
    (whole({**FIRST, "member": 7}), "the type of member 0 of type 4 names type 7, and only those below 4 may stand there"),
    (initializer_of_global_three(), "the initializer of global 3 names global expression 2, and none may stand there"),
    (operand_in_function_two(),
     "operand 0 of expression 7 of function 2 names expression 9, and only those below 7 may stand there"),
    (operand_of_the_module(),
     "operand 1 of global expression 7 names global expression 7, and only those below 7 may stand there"),
    (argument_of_a_call(),
     "argument 1 of statement 3 of entry point 0 names expression 9, and only those below 7 may stand there"),
    (range_past_its_end(), "the range of statement 0 of function 0 ends at 9, and there are 7 expressions"),
    (size_of_global_one(), "the type of global 1 is type 2, whose size isn't known, and the space is TaskPayload"),
]

# Of the first handles the entry point is judged, whose payload is none; of the last the initializer is of another type.
FITTING = [
    (whole(), verdicts.in_entry_point(0, "TaskPayloadWrongAddressSpace")),
    (whole(LAST), verdicts.in_global(0, "InitializerType")),
]


def misfits():
    return rows_of("misfits", [(made, verdicts.NOT_FIT) for made, _ in UNFIT] + FITTING)


def sentences():
    """The sentence of each of these rows that has one, by its name."""
    return {f"misfits {number}": sentence for number, (_, sentence) in enumerate(UNFIT, 1) if sentence is not None}
