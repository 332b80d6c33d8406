"""Rows of the form of documents and verdicts: a worked example, facts beyond what is asked for and facts of a wrong number, texts
with escapes, names that no other document has, documents that can't be read, stages by one text, and ids."""

import json

import form as f
import verdicts
from form import BOOL, STAGES, U32
from module import Module, document, function
from plain import info_fact
from statements import one_function, rows_of


# An example.

def worked():
    """A fragment entry point that calls a function, which kills, and loads from a uniform. The function has the span of its
    Return written, all other statements have none; the lower layer leaves fewer stages than the statements do."""
    some = ["VERTEX", "FRAGMENT"]
    module = Module()
    module.type(U32, f.info(f.without(f.TYPE_FLAGS, "IO_SHAREABLE", "ARGUMENT")))
    module.global_("Uniform", 0, binding=0)
    module.function(function([f.zero(0)], ["Kill", f.at([5, 13], f.return_(0))], result=(0, None)))
    calls = [f.call(0, result=0), f.emit(2, 3)]
    module.entry_point("Fragment", function([f.call_result(0), f.global_variable(0), f.load(1)], calls))
    called = info_fact([{"Handle": 0}], [[]], ["VERTEX", "FRAGMENT", "COMPUTE"], [{"stages": some}])
    types = [{"Handle": 0}, {"Value": f.pointer(0, "Uniform")}, {"Handle": 0}]
    calling = info_fact(types, [["READ"]], some, [{"stages": ["FRAGMENT"]}] * 3)
    told = document(module, capabilities=[], stages=[], operations=[], functions=[called], entry_points=[calling])
    return told, verdicts.ok([["FRAGMENT"]], [verdicts.entry(["FRAGMENT"], [["READ"]])])


# Facts: more than is asked for, and as many as are judged.

def with_facts(more):
    """A function and an entry point, and to each list of facts so much more."""
    module = Module(U32)
    module.global_expression(f.literal(f.UINT), 0)
    made = lambda: function([f.literal(f.UINT, 7)])
    module.function(made())
    module.entry_point("Fragment", made())
    told = document(module)
    for name, items in more.items():
        told["facts"][name] = told["facts"][name] + items
    return told


def analysis():
    implied = {
        "topology": "Lines", "max_vertices": 2, "max_vertices_override": None, "max_primitives": 1,
        "max_primitives_override": None, "vertex_output_type": 0, "primitive_output_type": 0, "output_variable": 0,
    }
    return {"implied": implied, "overrides": [None, 0], "fault": "OutputField"}


def facts():
    refusal = {"error": {"InvalidMeshFunctionCall": 7}}
    more = {
        "sizes": [None, 4294967295], "mesh_analyses": [None, analysis()], "functions": [info_fact([], []), refusal],
        "entry_points": [refusal],
    }
    too_few = with_facts({})
    too_few["facts"]["global_types"] = []
    return [
        (with_facts(more), verdicts.ok([STAGES], [verdicts.entry()])),
        (with_facts({"global_types": [{"Handle": 0}]}), verdicts.NOT_FIT),
        (too_few, verdicts.NOT_FIT),
    ]


# Texts. Of these characters each that has an escape in verdicts stands at the front, in the order of docs/MODULES.md.

ESCAPED = "\"\\\b\f\n\r\t\0\x01\x1f /\x7f\u00e9\u6f22\U0001f600"


def named_local():
    made = function(local_variables=[0])
    made["local_variables"][0]["name"] = ESCAPED
    fault = {"LocalVariable": {"handle": 0, "name": ESCAPED, "source": {"InvalidType": 0}}}
    return one_function(Module(U32), made, fault, None, infos=[f.info(["DATA"])])


def named_argument():
    """Its document has just the escapes that JSON asks for, and all else as it is."""
    made = function(arguments=[(0, None)])
    made["arguments"][0]["name"] = ESCAPED
    fault = {"InvalidArgumentType": {"index": 0, "name": ESCAPED}}
    told, verdict = one_function(Module(U32), made, fault, None, infos=[f.info(["DATA"])])
    return json.dumps(told, separators=(",", ":"), ensure_ascii=False), verdict


# Names that no other document has, in one module that is accepted.

PARTS = [
    "Splat", "Swizzle", "ImageSample", "ImageLoad", "ImageQuery", "Unary", "Binary", "Select", "Derivative", "Relational", "Math",
    "As", "ArrayLength", "RayQueryGetIntersection", "RayQueryVertexPositions", "CooperativeLoad", "CooperativeMultiplyAdd",
]
FORMATS = [
    "R8Unorm", "R8Snorm", "R8Uint", "R8Sint", "R16Uint", "R16Sint", "R16Unorm", "R16Snorm", "R16Float", "Rg8Unorm", "Rg8Snorm",
    "Rg8Uint", "Rg8Sint", "R32Uint", "R32Sint", "R32Float", "Rg16Uint", "Rg16Sint", "Rg16Unorm", "Rg16Snorm", "Rg16Float",
    "Rgba8Unorm", "Rgba8Snorm", "Rgba8Uint", "Rgba8Sint", "Bgra8Unorm", "Rgb10a2Uint", "Rgb10a2Unorm", "Rg11b10Ufloat", "R64Uint",
    "Rg32Uint", "Rg32Sint", "Rg32Float", "Rgba16Uint", "Rgba16Sint", "Rgba16Unorm", "Rgba16Snorm", "Rgba16Float", "Rgba32Uint",
    "Rgba32Sint", "Rgba32Float",
]
# Each with the index that is expression 1, a constant; BroadcastFirst and QuadSwap have none.
MODES = ["Broadcast", "Shuffle", "ShuffleDown", "ShuffleUp", "ShuffleXor", "QuadBroadcast"]
COLLECTIVES = [("Or", "Reduce"), ("Xor", "Reduce"), ("Mul", "ExclusiveScan")]


def value_pointer(size, space):
    return {"ValuePointer": {"size": size, "scalar": f.UINT, "space": space}}


def types():
    """Types 0 to 5 are named; behind them stand types that are read and named nowhere."""
    unnamed = [f.scalar(f.scalar_of(kind, 8)) for kind in ("AbstractInt", "AbstractFloat")]
    unnamed += [value_pointer(None, "Function"), value_pointer("Bi", "Private")]
    unnamed += [{"Array": {"base": U32, "size": {"Pending": 0}, "stride": 4}}]
    unnamed += [f.image({"Sampled": {"kind": "Sint", "multi": True}}, dim) for dim in ("D1", "D3", "Cube")]
    unnamed += [f.storage_image(name, ["LOAD"]) for name in FORMATS]
    return [U32, BOOL, f.vector("Bi", f.UINT), f.ray_query(), f.acceleration_structure(False), f.atomic(f.UINT), *unnamed]


def everything():
    """Expressions 0 is a u32, 1 a constant, 2 an override, 3 a local of two u32 and 4 a ray query, 5 a global with an atomic u32, 6
    a bool, and 7 a pointer to an item of the local, by value. Behind these stand the kinds that are unread but for their operands,
    and then the results of the statements of subgroups."""
    module = Module(*types())
    module.parts["constants"].append({"ty": 0})
    module.override(0)
    module.global_(f.storage("LOAD", "STORE"), 5, binding=0)
    plain = [
        f.literal(f.UINT, 7), {"Constant": 0}, {"Override": 0}, f.local_variable(0), f.local_variable(1), f.global_variable(0),
        f.literal(f.BOOLEAN, 1), {"AccessIndex": {"base": 3, "index": 1}},
    ]
    unread = [{kind: {"operands": [0, 1, 2][:at % 4], "detail": at}} for at, kind in enumerate(PARTS)]
    end = len(plain) + len(unread)
    modes = ["BroadcastFirst", {"QuadSwap": 2}] + [{mode: 1} for mode in MODES]
    gathers = [f.gather(mode, 0, end + at) for at, mode in enumerate(modes)]
    end_of_gathers = end + len(gathers)
    collectives = [f.collective(*op, 0, end_of_gathers + at) for at, op in enumerate(COLLECTIVES)]
    any_result = end_of_gathers + len(collectives)
    body = [
        f.emit(7, end), {"Store": {"pointer": 7, "value": 0}}, *gathers, *collectives,
        f.collective("Any", "Reduce", 6, any_result), *[f.atomic_of(fun, 5, 0, None) for fun in (
            "Subtract", "ExclusiveOr", "InclusiveOr",
        )],
        {"RayQuery": {"query": 4, "fun": "ConfirmIntersection"}}, {"ControlBarrier": ["STORAGE"]},
        {"MemoryBarrier": ["TEXTURE"]},
    ]
    results = [f.operation_result(0)] * (any_result - end) + [f.operation_result(1)]
    in_function = lambda base: {"Value": f.pointer(base, "Function")}
    types_of = [
        {"Value": U32}, {"Handle": 0}, {"Handle": 0}, in_function(2), in_function(3),
        {"Value": f.pointer(5, f.storage("LOAD", "STORE"))}, {"Value": BOOL}, {"Value": value_pointer(None, "Function")},
    ] + [{"Handle": 0}] * (any_result - len(plain)) + [{"Handle": 1}]
    fact = info_fact(types_of, [["READ", "QUERY", "ATOMIC"]])
    made = function([*plain, *unread, *results], body, [2, 3])
    return one_function(module, made, f.COMPUTE_LIKE, functions=[fact])


# What can't be read: in the facts, in the settings, and in an entry point. Which names a form has is written here as
# docs/MODULES.md has it.

def unreadable(pointer, expected):
    return {"unreadable": {"pointer": pointer, "expected": expected}}


def quoted(names):
    return ", ".join(f'"{name}"' for name in names)


def missing(name):
    return f'the field "{name}"'


def too_many(name, *fields):
    return f'no field "{name}": ' + ("the field is " if len(fields) == 1 else "the fields are ") + quoted(fields)


def one_of(names, holding=()):
    """One of these names, or of these variants that hold something."""
    held = [f'{{"{name}": ..}}' for name in holding]
    return "one of " + ", ".join([f'"{name}"' for name in names] + held)


def broken(change):
    told = with_facts({})
    change(told)
    return told


def unreadables():
    lacks_a_field = lambda told: told["facts"]["entry_points"][0]["info"].pop("dual_source_blending")
    unknown_name = lambda told: told.update(capabilities=["SUBGROUP", "SUBGROUPS"])
    with_a_point = lambda told: told["module"]["entry_points"][0].update(workgroup_size=[0, 0, 1.0])
    return [
        (broken(lacks_a_field), unreadable("/facts/entry_points/0/info", missing("dual_source_blending"))),
        (broken(unknown_name), unreadable("/capabilities/1", one_of(f.CAPABILITIES))),
        (broken(with_a_point), unreadable("/module/entry_points/0/workgroup_size/2", "an integer from 0 to 4294967295")),
    ]


def misnamed():
    """Names that there aren't, of each kind; counts that are 0; and a field that is one too many, where another is missing."""
    one_type = lambda inner: lambda told: told["module"].update(types=[{"name": None, "inner": inner}])
    one_expression = lambda made: lambda told: told["module"]["functions"][0].update(expressions=[made])
    a_typo = lambda told: told["module"]["entry_points"][0].update(msh_info=told["module"]["entry_points"][0].pop("mesh_info"))
    entry_point = ["stage", "early_depth_test", "workgroup_size", "function", "mesh_info", "task_payload"]
    binary = {"op": "Plus", "left": 0, "right": 0}
    operators = [
        "Add", "Subtract", "Multiply", "Divide", "Modulo", "Equal", "NotEqual", "Less", "LessEqual", "Greater", "GreaterEqual", "And",
        "ExclusiveOr", "InclusiveOr", "LogicalAnd", "LogicalOr", "ShiftLeft", "ShiftRight",
    ]
    plain = ["Function", "Private", "WorkGroup", "Uniform", "Handle", "Immediate", "TaskPayload", "RayPayload", "IncomingRayPayload"]
    expression = "/module/functions/0/expressions/0/"
    inner = "/module/types/0/inner/"
    return [
        (broken(a_typo), unreadable("/module/entry_points/0", too_many("msh_info", *entry_point))),
        (broken(one_type({"Sampler": {"compare": True}})), unreadable(inner + "Sampler", too_many("compare", "comparison"))),
        (broken(one_type({"Pointer": {"base": 0, "space": "Workgroup"}})),
         unreadable(inner + "Pointer/space", one_of(plain, ["Storage"]))),
        (broken(one_type({"Array": {"base": 0, "size": {"Constant": 0}, "stride": 4}})),
         unreadable(inner + "Array/size/Constant", "an integer from 1 to 4294967295")),
        (broken(one_type({"Array": {"base": 0, "size": {"Constant": -1}, "stride": 4}})),
         unreadable(inner + "Array/size/Constant", "an integer from 1 to 4294967295")),
        (broken(one_type({"Array": {"base": 0, "size": 3, "stride": 4}})),
         unreadable(inner + "Array/size", one_of(["Dynamic"], ["Constant", "Pending"]))),
        (broken(one_expression({"Binary": binary})), unreadable(expression + "Binary/op", one_of(operators))),
        (broken(one_expression({"Splat": {"size": "Tri", "valu": 0}})),
         unreadable(expression + "Splat", too_many("valu", "size", "value"))),
        (broken(one_expression({"As": {"expr": 0, "kind": "Float", "convert": -1}})),
         unreadable(expression + "As/convert", "an integer from 1 to 255, or null")),
        (broken(lambda told: told.update(subgroup_stages=["ALL"])), unreadable("/subgroup_stages/0", one_of(STAGES))),
        (broken(lambda told: told.update(subgroup_stages="VERTEX")), unreadable("/subgroup_stages", 'a list of stages, or "ALL"')),
        (broken(lambda told: told.update(subgroup_stages=None)), unreadable("/subgroup_stages", 'a list of stages, or "ALL"')),
    ]


# Stages by one text, wherever a document has a set of them.

def all_stages():
    """A function and an entry point, whose facts have all stages; the settings have them too."""
    told = with_facts({})
    told["subgroup_stages"] = "ALL"
    for name in ("functions", "entry_points"):
        info = told["facts"][name][0]["info"]
        assert info["stages"] == STAGES
        info.update(stages="ALL", expressions=[{"stages": "ALL"} for _ in info["expressions"]])
    return told, verdicts.ok([STAGES], [verdicts.entry()])


# Ids, which come back in front of the verdict.

FIELDS = ["flags", "capabilities", "subgroup_stages", "subgroup_operations", "module", "facts"]
NO_ID = "a text, or an integer from -9223372036854775808 to 9223372036854775807"


def with_id(name, row):
    """The row of a document with an id, which stands last in it."""
    told, verdict = row[:2]
    return {**told, "id": name}, {"id": name, **verdict}


def ids():
    accepted = with_facts({}), verdicts.ok([STAGES], [verdicts.entry()])
    unfit = with_facts({"global_types": [{"Handle": 0}]}), verdicts.NOT_FIT
    lacks_one = with_id(0, accepted)[0]
    lacks_one.pop("facts")
    told, verdict = named_local()
    return [
        with_id(7, accepted), with_id("", accepted), with_id(-9223372036854775808, unfit), with_id(9223372036854775807, unfit),
        with_id(ESCAPED, (told, verdict)),
        (lacks_one, {"id": 0, **unreadable("", missing("facts"))}),
        ({"id": "no document", "x": 1}, {"id": "no document", **unreadable("", too_many("x", "id", *FIELDS))}),
        with_id(-1, (broken(lambda told: told.update(flags=7)), unreadable("/flags", "a list"))),
        ({**accepted[0], "id": None}, unreadable("/id", NO_ID)),
        ({**accepted[0], "id": 9223372036854775808}, unreadable("/id", NO_ID)),
        ({**accepted[0], "id": 1.0}, unreadable("/id", NO_ID)),
        ({**accepted[0], "id": None, "flags": 7}, unreadable("/id", NO_ID)),
    ]


def forms():
    return rows_of("forms", [
        worked(), *facts(), named_local(), named_argument(), everything(), *unreadables(), all_stages(), *misnamed(),
        *ids(),
    ])
