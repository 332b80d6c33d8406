"""Rows of entry points."""

import form as f
from entry import (
    AT_COMPUTE, AT_FRAGMENT, AT_MESH, AT_TASK, AT_VERTEX, COLLIDING, COLLIDING_FACELESS, COLOR, CORNERS, COUNTS, FACELESS,
    IMMEDIATE, INCOMING, KILLS, OTHER_IMMEDIATE, OTHER_RAY_PAYLOAD, OUTPUT, PAYLOAD, PLACED, PLACELESS, RAY_PAYLOAD, RESTS,
    ROUGH, SHORT_PAYLOAD, SINK, SOURCES, STRUCTURE, TWIN, TWO_FACED, UNIFORM, WAITS, Analysis, Bench, at, entry_row, in_groups,
    smooth, triangles,
)
from form import F32, FLAGS, STAGES, U32
from statements import one_function, rows_of
from verdicts import WITH_ALL

LAST = 4294967295
MESH_SHADER = {"UnsupportedCapability": ["MESH_SHADER"]}
BREAKS = {"Function": "BreakOutsideOfLoopOrSwitch"}


def calls(*functions):
    return [("Call", function) for function in functions]


def unbound(ty):
    return ty, None


def flat(ty):
    return ty, f.location(0, "Flat")


def rows(title, cases):
    return rows_of(title, [entry_row(*case) for case in cases])


# Without its payload and its result, which the target couldn't have either, so that the entry point is met.
BARE_TASK = AT_TASK.but(payload=None, declared=None)


def faults():
    return rows("entry/faults", [
        (BARE_TASK.lacking("MESH_SHADER"), MESH_SHADER),
        (AT_VERTEX.but(tests_depth=True), "UnexpectedEarlyDepthTest"),
        (AT_VERTEX.but(workgroup_size=(1, 1, 1)), "UnexpectedWorkgroupSize"),
        (AT_COMPUTE.but(workgroup_size=(0, 1, 1)), "OutOfRangeWorkgroupSize"),
        (in_groups("Mesh"), "ExpectedMeshShaderAttributes"),
        (AT_COMPUTE.but(mesh=triangles()), "UnexpectedMeshShaderAttributes"),
        (AT_COMPUTE.doing("Break"), BREAKS),
        (AT_TASK.but(payload=None), "ExpectedTaskPayload"),
        (AT_COMPUTE.but(payload=PAYLOAD), "UnexpectedTaskPayload"),
        (AT_TASK.but(payload=OUTPUT), "TaskPayloadWrongAddressSpace"),
        (AT_COMPUTE.doing(*calls(KILLS)), "ForbiddenStageOperations"),
        (AT_FRAGMENT.but(arguments=(unbound(F32),)), {"Argument": [0, "MissingBinding"]}),
        (AT_FRAGMENT.but(declared=unbound(F32)), {"Result": "MissingBinding"}),
        (at("Vertex"), "MissingVertexOutputPosition"),
        (AT_VERTEX.but(declared=flat(U32)), "MissingVertexOutputPosition"),
        (AT_MESH.but(declared=flat(COUNTS)), "UnexpectedMeshShaderEntryResult"),
        (AT_TASK.but(declared=(U32, f.location(0))), "WrongTaskShaderEntryResult"),
        (AT_TASK.but(declared=None), "WrongTaskShaderEntryResult"),
        (AT_COMPUTE.naming(IMMEDIATE, OTHER_IMMEDIATE), "MoreThanOneImmediateUsed"),
        (AT_COMPUTE.naming(UNIFORM, TWIN), {"BindingCollision": TWIN}),
        (AT_COMPUTE.naming(SINK, SINK), {"InvalidGlobalUsage": [SINK, ["READ"]]}),
        (AT_TASK.naming(SHORT_PAYLOAD, SHORT_PAYLOAD), "WrongTaskPayloadUsed"),
        (AT_TASK.but(payload=SHORT_PAYLOAD), {"TaskPayloadTooSmall": 3}),
        (at("AnyHit").naming(RAY_PAYLOAD, RAY_PAYLOAD), {"RayPayloadInInvalidStage": "AnyHit"}),
        (at("RayGeneration").naming(INCOMING, INCOMING), {"IncomingRayPayloadInInvalidStage": "RayGeneration"}),
        (at("RayGeneration").naming(STRUCTURE, RAY_PAYLOAD).doing(f.trace_ray(0, 2, 2)), {"Function": "InvalidPayloadType"}),
    ])


def order():
    """Each entry point is wrong in two neighboring steps, and the earlier answers."""
    early = AT_VERTEX.but(tests_depth=True)
    no_payload = AT_TASK.but(payload=None)
    no_position = at("Vertex")
    depth = {"Result": {"UnsupportedCapability": ["EARLY_DEPTH_TEST"]}}
    return rows("entry/order", [
        (BARE_TASK.but(tests_depth=True).lacking("MESH_SHADER"), MESH_SHADER),
        (early.lacking("EARLY_DEPTH_TEST"), depth),
        (early.but(workgroup_size=(1, 1, 1)), "UnexpectedEarlyDepthTest"),
        (at("Mesh"), "OutOfRangeWorkgroupSize"),
        (in_groups("Mesh").doing("Break"), "ExpectedMeshShaderAttributes"),
        (no_payload.doing("Break"), BREAKS),
        (no_payload.doing(*calls(KILLS)), "ExpectedTaskPayload"),
        (AT_FRAGMENT.doing(*calls(WAITS)).but(arguments=(unbound(F32),)), "ForbiddenStageOperations"),
        (no_position.but(arguments=(unbound(F32),)), {"Argument": [0, "MissingBinding"]}),
        (no_position.but(declared=unbound(F32)), {"Result": "MissingBinding"}),
        (no_position.naming(IMMEDIATE, OTHER_IMMEDIATE), "MissingVertexOutputPosition"),
        (AT_TASK.but(payload=SHORT_PAYLOAD).naming(IMMEDIATE, OTHER_IMMEDIATE), "MoreThanOneImmediateUsed"),
        (AT_TASK.naming(SHORT_PAYLOAD, SHORT_PAYLOAD), "WrongTaskPayloadUsed"),
        (AT_TASK.but(payload=SHORT_PAYLOAD).naming(SINK, SINK), {"TaskPayloadTooSmall": 3}),
        (AT_COMPUTE.naming(UNIFORM, SINK), {"InvalidGlobalUsage": [SINK, ["READ"]]}),
        (AT_MESH.but(mesh=triangles(output=UNIFORM)).naming(TWIN, TWIN), {"BindingCollision": TWIN}),
    ])


# Meshes.

def of_mesh(**parts):
    return AT_MESH.but(mesh=triangles(**parts))


def judged_as(case, **parts):
    return case.but(analysis=Analysis(**parts))


def overridden(named, implied):
    return judged_as(of_mesh(overrides=named), overrides=implied)


TOPOLOGY = "MESH_SHADER_POINT_TOPOLOGY"
COLLISION = {"Result": {"BindingCollision": {"location": 0}}}


def mesh_faults():
    topology = {"UnsupportedCapability": [TOPOLOGY]}
    sources = {"Result": {"InvalidAttributeInStage": ["blend_src", "Mesh"]}}
    bad_type = "BadMeshOutputVariableType"
    return [
        (of_mesh(output=UNIFORM), "WrongMeshOutputAddressSpace"),
        (of_mesh(output=SINK), {"InvalidGlobalUsage": [SINK, ["READ"]]}),
        (judged_as(AT_MESH, fault="OutputType"), bad_type),
        (judged_as(AT_MESH, fault="OutputField"), "BadMeshOutputVariableField"),
        (judged_as(AT_MESH, vertices=4), bad_type),
        (overridden((0, None), (1, None)), bad_type),
        (overridden((None, 1), (1, None)), bad_type),
        (of_mesh(topology="Points").lacking(TOPOLOGY), topology, *WITH_ALL),
        (of_mesh(vertex=U32), "InvalidMeshOutputType"),
        (of_mesh(vertex=SOURCES), sources),
        (of_mesh(vertex=ROUGH), {"Result": "MissingInterpolation"}),
        (of_mesh(vertex=PLACELESS), "MissingVertexOutputPosition"),
        (of_mesh(primitive=U32), "InvalidMeshOutputType"),
        (of_mesh(primitive=COLLIDING), COLLISION),
        (of_mesh(primitive=FACELESS), "InvalidMeshPrimitiveOutputType"),
        (of_mesh(primitive=TWO_FACED), "InvalidMeshPrimitiveOutputType"),
    ]


def mesh_order():
    points = of_mesh(topology="Points")
    return [
        (judged_as(of_mesh(output=UNIFORM), fault="OutputField"), "WrongMeshOutputAddressSpace"),
        (judged_as(AT_MESH, vertices=4, fault="OutputField"), "BadMeshOutputVariableField"),
        (judged_as(points.lacking(TOPOLOGY), vertices=4), "BadMeshOutputVariableType"),
        (of_mesh(topology="Points", vertex=U32).lacking(TOPOLOGY), {"UnsupportedCapability": [TOPOLOGY]}),
        (of_mesh(vertex=PLACELESS, primitive=U32), "MissingVertexOutputPosition"),
        (of_mesh(primitive=COLLIDING_FACELESS), COLLISION),
    ]


def meshes():
    accepted = [
        AT_MESH, AT_MESH.but(payload=PAYLOAD), of_mesh(topology="Points"), AT_MESH.lacking(TOPOLOGY),
        of_mesh(primitive=PLACED), overridden((0, 1), (0, 1)), overridden((2, 2), (None, None)),
    ]
    return rows("entry/mesh", mesh_faults() + mesh_order() + [(case,) for case in accepted])


# Stages.

def stages():
    needing = [
        (AT_TASK, "MESH_SHADER"), (AT_MESH, "MESH_SHADER"), (at("RayGeneration"), "RAY_TRACING_PIPELINE"),
        (at("AnyHit"), "RAY_TRACING_PIPELINE"), (at("ClosestHit"), "RAY_TRACING_PIPELINE"),
        (at("Miss"), "RAY_TRACING_PIPELINE"),
    ]
    found = []
    for case, needed in needing:
        lacking = BARE_TASK if case == AT_TASK else case
        with_all = WITH_ALL if lacking == case else ()
        unsupported = {"UnsupportedCapability": [needed]}
        found += [(target, unsupported, *with_all) for target in (lacking.lacking(needed), lacking.but(capabilities=()))]
        found.append((case.but(capabilities=(needed,)),))
    found += [(case.but(capabilities=()),) for case in (AT_VERTEX, AT_FRAGMENT, AT_COMPUTE)]
    found += [(case.doing(*calls(*functions)),) for case, functions in [
        (AT_FRAGMENT, (RESTS, KILLS)), (AT_COMPUTE, (WAITS, RESTS)), (AT_TASK, (WAITS, WAITS)),
    ]]
    found += [(case.doing(*calls(*functions)), "ForbiddenStageOperations") for case, functions in [
        (AT_FRAGMENT, (KILLS, WAITS)), (AT_COMPUTE, (WAITS, KILLS)), (AT_VERTEX, (RESTS, KILLS)),
    ]]
    return rows("entry/stages", found)


# Rows that were worked out by hand.

def alone(case, outcome):
    """The function of a case by itself, with a local that begins as the ray descriptor."""
    bench = Bench([case])
    made = bench.function(case)
    made["local_variables"] = [{"name": None, "ty": bench.type(COLOR), "init": len(case.globals)}]
    return one_function(bench.module, made, outcome)


def positions(first):
    """Two positions, the first of which is invariant or not, and the second not so."""
    place = lambda invariant: (COLOR, f.built_in(f.position(invariant)))
    return AT_FRAGMENT.but(arguments=(place(first), place(not first)))


def worked():
    sized = lambda case, width: case.but(workgroup_size=(width, 1, 1))
    twice = lambda invariant: {"Argument": [1, {"DuplicateBuiltIn": f.position(invariant)}]}
    corners = CORNERS, f.location(0, "PerVertex", "Center")
    combination = {"InvalidInterpolationSamplingCombination": {"interpolation": "PerVertex", "sampling": "Center"}}
    with_any_bindings = lambda case: case.but(flags=tuple(f.without(FLAGS, "BINDINGS")))
    two_at_last = AT_FRAGMENT.but(arguments=(smooth(COLOR, LAST), smooth(COLOR, LAST)))
    out_of_range = "OutOfRangeWorkgroupSize"
    generating = lambda payload, ray: at("RayGeneration").naming(STRUCTURE, payload).doing(ray)
    entry_points = [
        (sized(AT_COMPUTE, 16384),),
        (sized(AT_COMPUTE, 16385), out_of_range),
        (sized(AT_COMPUTE, 0), out_of_range),
        (sized(AT_COMPUTE, LAST), out_of_range),
        (sized(AT_VERTEX, 1), "UnexpectedWorkgroupSize"),
        (AT_COMPUTE.doing(*calls(KILLS)), "ForbiddenStageOperations"),
        (AT_FRAGMENT.doing(*calls(KILLS)),),
        (positions(True), twice(False)),
        (positions(False), twice(True)),
        (positions(True).but(flags=()), twice(False)),
        (positions(False).but(flags=()), twice(True)),
        (AT_FRAGMENT.but(arguments=(smooth(U32, 0),)), {"Argument": [0, "InvalidInterpolationForInteger"]}),
        (AT_FRAGMENT.but(arguments=(corners,)), {"Argument": [0, combination]}),
        (AT_COMPUTE.naming(UNIFORM, UNIFORM),),
        (AT_COMPUTE.naming(UNIFORM, TWIN), {"BindingCollision": TWIN}),
        (with_any_bindings(AT_COMPUTE.naming(UNIFORM, TWIN)),),
        (AT_FRAGMENT.but(arguments=(smooth(COLOR, LAST),)),),
        (two_at_last, {"Argument": [1, {"BindingCollision": {"location": LAST}}]}),
        (with_any_bindings(two_at_last),),
    ]
    return rows_of("entry/worked", [entry_row(*case) for case in entry_points] + [
        alone(generating(RAY_PAYLOAD, f.trace_ray(0, 1, 1)), {"InvalidRayDescriptor": 1}),
        alone(generating(OTHER_RAY_PAYLOAD, "TraceRay"), STAGES),
    ])


# What is known of an accepted entry point.

def kept():
    tracing = at("RayGeneration").naming(STRUCTURE, RAY_PAYLOAD).doing("TraceRay")
    return rows("entry/kept", [
        (AT_FRAGMENT.but(declared=unbound(SOURCES)),),
        (AT_FRAGMENT.but(declared=smooth(COLOR, 0)),),
        (AT_FRAGMENT,),
        (AT_TASK,),
        (AT_MESH.but(payload=PAYLOAD),),
        (AT_MESH,),
        (AT_COMPUTE,),
        (AT_COMPUTE.naming(UNIFORM, UNIFORM),),
        (tracing.but(payload=PAYLOAD), "UnexpectedTaskPayload"),
        (tracing,),
        (AT_MESH.but(beside=(PAYLOAD,)),),
        (AT_COMPUTE.but(beside=(OUTPUT,)),),
        (AT_COMPUTE.naming(UNIFORM, UNIFORM).but(beside=(TWIN,)),),
    ])
