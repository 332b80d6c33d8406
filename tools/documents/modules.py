"""Rows of whole modules: of the order of their parts, of what ray traces leave, and of stages; and the table of faults."""

import form as f
import verdicts
from entry import AT_COMPUTE, AT_FRAGMENT, AT_MESH, STRUCTURE_TYPE, Bench, Global, TypeOf, at
from form import F32, HERE, STAGES, U32
from functions import USELESS
from module import Module, document, function
from plain import info_fact
from statements import rows_of

BREAKS = "BreakOutsideOfLoopOrSwitch"
PRIVATE = Global("private", "Private", U32, None)
NOWHERE = Global("nowhere", "Private", 99, None)
UNBOUND_UNIFORM = Global("uniform", "Uniform", U32, None)
# A task payload whose size the plain layer doesn't know.
BOUNDLESS = Global("boundless", "TaskPayload", STRUCTURE_TYPE, None)
RAYS = [
    Global("structure", "Handle", STRUCTURE_TYPE, 0), Global("payload", "RayPayload", U32, None),
    Global("other payload", "RayPayload", F32, None),
]


def in_function(index, fault):
    return lambda bench: verdicts.in_function(index, bench.resolved(fault), HERE)


def in_entry_point(index, fault):
    return lambda bench: verdicts.in_entry_point(index, bench.resolved(fault))


def in_global(index, fault):
    return lambda bench: verdicts.in_global(index, fault)


def not_fit(bench):
    return verdicts.NOT_FIT


def accepted(functions, entry_points):
    return lambda bench: verdicts.ok(functions, entry_points)


def module_row(expected, variables=(), functions=(), entries=(), infos=None):
    """A module of these globals, functions and entry points. Of a function the body and the globals that it names count alone."""
    bench = Bench([*functions, *entries], list(variables))
    for case in functions:
        bench.module.function(bench.function(case))
    for case in entries:
        bench.enter(case)
    return document(bench.module, infos=infos), expected(bench)


def calls(index):
    return "Call", index


def parts_in_order():
    breaking, killing = AT_FRAGMENT.doing("Break"), AT_FRAGMENT.doing("Kill")
    missing_payload = AT_COMPUTE.but(payload=9)
    unbound = in_global(0, "InvalidBinding")
    in_entry = in_entry_point(0, {"Function": BREAKS})
    no_position = in_entry_point(1, "MissingVertexOutputPosition")
    return [
        module_row(accepted([], [])),
        module_row(not_fit, functions=[AT_FRAGMENT.doing(calls(0))]),
        module_row(not_fit, [NOWHERE]),
        module_row(not_fit, [UNBOUND_UNIFORM, NOWHERE]),
        module_row(in_global(1, "InvalidBinding"), [PRIVATE, UNBOUND_UNIFORM]),
        module_row(unbound, [UNBOUND_UNIFORM], [breaking]),
        module_row(not_fit, functions=[AT_FRAGMENT.doing("Break", calls(0))]),
        module_row(in_function(0, BREAKS), functions=[breaking, AT_FRAGMENT.doing(calls(1))]),
        module_row(in_function(1, BREAKS), [BOUNDLESS], [killing, breaking]),
        module_row(not_fit, [BOUNDLESS], entries=[breaking]),
        module_row(in_entry, entries=[breaking, missing_payload]),
        module_row(not_fit, entries=[missing_payload, breaking]),
        module_row(not_fit, entries=[AT_FRAGMENT, AT_COMPUTE.but(payload=0)]),
        module_row(no_position, entries=[AT_FRAGMENT, at("Vertex")]),
    ]


def rays_go_on():
    tracing = lambda payload: at("RayGeneration").naming(0, payload).doing("TraceRay")
    mismatch = {"MismatchedPayloadType": [TypeOf(F32), TypeOf(U32)]}
    in_entry = lambda index: in_entry_point(index, {"Function": mismatch})
    return [
        module_row(accepted([STAGES, STAGES], []), RAYS, [tracing(1), tracing(1)]),
        module_row(in_function(1, mismatch), RAYS, [tracing(1), tracing(2)]),
        module_row(in_entry(0), RAYS, [tracing(1)], [tracing(2)]),
        module_row(in_entry(1), RAYS, entries=[tracing(1), tracing(2)]),
    ]


def stages_go_by_functions():
    kills, calling = [AT_FRAGMENT.doing("Kill")], calls(0)
    forbidden = in_entry_point(0, "ForbiddenStageOperations")
    fragment = accepted([["FRAGMENT"]], [verdicts.entry(["FRAGMENT"])])
    return [
        module_row(forbidden, functions=kills, entries=[AT_COMPUTE.doing(calling)]),
        module_row(fragment, functions=kills, entries=[AT_FRAGMENT.doing(calling)]),
        module_row(not_fit, infos=[]),
    ]


# Recorded facts of functions and of entry points, and a mesh of which nothing is recorded.

def facts_in_order():
    module = Module(U32)
    made = lambda: function([f.literal(f.UINT, 7)])
    fact = lambda stage: info_fact([{"Handle": 0}], [], [stage])
    module.function(made())
    module.entry_point("Fragment", made())
    module.entry_point("Compute", made(), [1, 1, 1])
    told = document(module, functions=[fact("VERTEX")], entry_points=[fact("FRAGMENT"), fact("COMPUTE")])
    return told, verdicts.ok([["VERTEX"]], [verdicts.entry(["FRAGMENT"]), verdicts.entry(["COMPUTE"])])


def unknown_mesh():
    bench = Bench([AT_MESH])
    bench.enter(AT_MESH)
    return document(bench.module), verdicts.in_entry_point(0, "BadMeshOutputVariableType")


def without_fact():
    """An entry point of which no fact is recorded."""
    module = Module(U32)
    module.entry_point("Fragment", function([f.literal(f.UINT, 7)]))
    return document(module, entry_points=[]), verdicts.refused({"EntryPoint": 0}, {"Function": USELESS})


def recorded():
    return rows_of("entry/recorded", [facts_in_order(), unknown_mesh(), without_fact()])


def modules():
    return rows_of("entry/modules", parts_in_order() + rays_go_on() + stages_go_by_functions())


# The table of faults: how each is written.

def break_in_function_two():
    module = Module()
    for body in ([], [], ["Break"]):
        module.function(function(body=body))
    return document(module), verdicts.in_function(2, BREAKS, f.NOWHERE)


def named_local():
    """A local of type 4, which can't be constructed, with a name."""
    module = Module(U32, f.I32, F32, f.BOOL)
    module.type(f.vector("Bi", f.UINT), f.info(["DATA"]))
    made = function(local_variables=[4])
    made["local_variables"][0]["name"] = "x"
    module.function(made)
    fault = {"LocalVariable": {"handle": 0, "name": "x", "source": {"InvalidType": 4}}}
    return document(module), verdicts.in_function(0, fault)


def argument_out_of_scope():
    module = Module(U32)
    module.function(function(arguments=[(0, None), (0, None)]))
    module.function(function([f.literal(f.UINT), f.local_variable(0), f.load(1)], [f.call(0, [0, 2])], [0]))
    fault = {"InvalidCall": {"function": 0, "error": {"Argument": {"index": 1, "source": "NotInScope"}}}}
    return document(module), verdicts.in_function(1, fault, f.NOWHERE)


def float_atomic(in_entry):
    """An addition to an atomic f32, where the target lacks the capability."""
    module = Module(f.atomic(f.FLOAT))
    module.global_(f.storage("LOAD", "STORE"), 0, binding=0)
    made = function([f.global_variable(0), f.literal(f.FLOAT)], [f.atomic_of("Add", 0, 1, None)])
    fault = {"InvalidAtomic": {"MissingCapability": ["SHADER_FLOAT32_ATOMIC"]}}
    if in_entry:
        module.entry_point("Compute", made, [1, 1, 1])
        expected = verdicts.refused({"EntryPoint": 0}, {"Function": fault}, [f.NOWHERE])
    else:
        module.function(made)
        expected = verdicts.in_function(0, fault, f.NOWHERE)
    return document(module, capabilities=f.without(f.CAPABILITIES, "SHADER_FLOAT32_ATOMIC")), expected


def bad_layout():
    module = Module(U32, f.I32, F32, f.BOOL)
    module.infos[0] = f.info(uniform=(3, 7))
    module.global_("Uniform", 0, binding=0)
    return document(module), verdicts.in_global(0, {"Alignment": ["Uniform", 3, 7]})


def missing_flags():
    module = Module()
    module.global_("WorkGroup", module.type(U32, f.info(["DATA"])))
    fault = {"MissingTypeFlags": {"required": ["DATA", "SIZED"], "seen": ["DATA"]}}
    return document(module), verdicts.in_global(0, fault)


def entry_fault(stage, fault, arguments=(), result=None, **parts):
    """An entry point over u32 and vectors of four floats, with this fault."""
    module = Module(U32, f.vector("Quad", f.FLOAT), f.struct([(f.vector("Quad", f.FLOAT), None)], 16))
    for space in parts.get("globals", ()):
        module.global_(space, 0, binding=len(module.parts["global_variables"]))
    named = [f.global_variable(index) for index in parts.get("named", ())]
    made = function(named, arguments=arguments, result=result)
    groups = [1, 1, 1] if stage == "Compute" else [0, 0, 0]
    module.entry_point(stage, made, groups)
    facts = None
    if "uses" in parts:
        facts = [info_fact([{"Value": f.pointer(0, parts["globals"][index])} for index in parts["named"]], parts["uses"])]
    return document(module, entry_points=facts), verdicts.in_entry_point(0, fault)


def fault_table():
    # Where a built-in is visible is looked at before its type, and PointSize goes in nowhere: PointCoord stands in its place.
    size = {"Argument": [1, {"InvalidBuiltInType": ["PointCoord", U32]}]}
    sources = {"Result": {"InvalidAttributeInStage": ["blend_src", "Vertex"]}}
    arguments = [(1, f.built_in(f.position())), (0, f.built_in("PointCoord"))]
    readable = f.storage("LOAD")
    return rows_of("fault table", [
        break_in_function_two(),
        named_local(),
        argument_out_of_scope(),
        float_atomic(False) + verdicts.WITH_ALL,
        float_atomic(True) + verdicts.WITH_ALL,
        bad_layout(),
        missing_flags(),
        entry_fault("Fragment", size, arguments),
        entry_fault("Vertex", sources, result=(2, None)),
        entry_fault(
            "Compute", {"InvalidGlobalUsage": [3, ["READ", "WRITE"]]}, globals=[readable] * 4, named=[3],
            uses=[[], [], [], ["READ", "WRITE"]],
        ),
    ])
