"""Rows of what goes in and out of stages, as entry points, and of globals: those of the rules by themselves."""

import form as f
import verdicts
from entry import (
    AT_COMPUTE, AT_FRAGMENT, AT_MESH, AT_TASK, AT_VERTEX, COLOR, COUNTS, INDICES, PAIR, PAYLOAD, POSITION, SOURCES,
    InnerOf, TypeOf, at, by_primitive, entry_row, smooth, triangles,
)
from form import BOOL, CAPABILITIES, F32, FLAGS, I32, TYPE_FLAGS, U32
from module import Module, document
from statements import rows_of
from verdicts import WITH_ALL

TRIPLE = f.vector("Tri", f.FLOAT)
TYPES = [
    U32, F32, BOOL, PAIR, COUNTS, f.vector("Bi", f.FLOAT), TRIPLE, COLOR, f.matrix("Quad", "Tri", f.FLOAT),
    f.array(F32, 8), f.array(F32, 9), f.scalar(f.WIDE), f.scalar(f.DOUBLE), f.vector("Quad", f.UINT),
    f.matrix("Quad", "Quad", f.FLOAT), f.vector("Bi", f.BOOLEAN),
]

# Each built-in with the places where it is visible, its type, and a neighbor of it, which it doesn't have. A place is the letter
# of a stage and one for how: `i` in, `o` out, `p` out with the primitives of a mesh, `n` in without a task payload. `prim` is
# among what a mesh puts out of a primitive.
HITS = "Ai Ao Hi Ho"
RAYS = f"Ri Ro {HITS} Si So"
MISSES = f"{HITS} Si So"
GROUPS = "Ci Ti Mi"
SUBGROUPS = "Fi Ci Mi Ti Ri Ai Hi Si"
BUILT_INS = [
    ("BaseInstance", "Vi", 0, 11), ("BaseVertex", "Vi", 0, 11), ("VertexIndex", "Vi", 0, 11),
    ("InstanceIndex", "Vi Ai Hi", 0, 3), ("DrawIndex", "Vi Ti Mn", 0, 11), ("ClipDistances", "Vo Mo", 9, 10),
    ("CullDistance", "Vo Mo", 9, 10), ("PointSize", "Vo Mo", 1, 12), ("PointCoord", "Fi", 5, 6),
    (f.position(False), "Fi Vo Mo", 7, 6), (f.position(True), "Fi Vo Mo", 7, 6), ("ViewIndex", "Vi Fi Ti Mi", 0, 11),
    ("FragDepth", "Fo", 1, 12), ("FrontFacing", "Fi", 2, 15), ("PrimitiveIndex", "Fi Ai Hi Mp", 0, 3),
    ({"Barycentric": {"perspective": False}}, "Fi", 6, 7), ({"Barycentric": {"perspective": True}}, "Fi", 6, 7),
    ("SampleIndex", "Fi", 0, 11), ("SampleMask", "Fi Fo", 0, 3), ("LocalInvocationIndex", GROUPS, 0, 4),
    ("GlobalInvocationId", GROUPS, 4, 3), ("LocalInvocationId", GROUPS, 4, 3), ("WorkGroupId", GROUPS, 4, 3),
    ("WorkGroupSize", GROUPS, 4, 3), ("NumWorkGroups", GROUPS, 4, 3), ("NumSubgroups", GROUPS, 0, 11),
    ("SubgroupId", GROUPS, 0, 11), ("SubgroupSize", SUBGROUPS, 0, 11), ("SubgroupInvocationId", SUBGROUPS, 0, 11),
    ("CullPrimitive", "prim", 2, 15), ("PointIndex", "prim", 0, 11), ("LineIndices", "prim", 3, 4),
    ("TriangleIndices", "prim", 4, 13), ("MeshTaskSize", "To", 4, 3), ("RayInvocationId", RAYS, 4, 6),
    ("NumRayInvocations", RAYS, 4, 6), ("InstanceCustomData", HITS, 0, 11), ("GeometryIndex", HITS, 0, 11),
    ("HitKind", HITS, 0, 11), ("WorldRayOrigin", MISSES, 6, 4), ("WorldRayDirection", MISSES, 6, 4),
    ("ObjectRayOrigin", HITS, 6, 7), ("ObjectRayDirection", HITS, 6, 7), ("RayTmin", MISSES, 1, 0),
    ("RayTCurrentMax", MISSES, 1, 0), ("ObjectToWorld", HITS, 8, 14), ("WorldToObject", HITS, 8, 14),
]
NEVER_VISIBLE = ["VertexCount", "PrimitiveCount", "Vertices", "Primitives"]
AT_STAGE = {
    "V": AT_VERTEX, "F": AT_FRAGMENT, "C": AT_COMPUTE, "T": AT_TASK, "M": AT_MESH, "R": at("RayGeneration"), "A": at("AnyHit"),
    "H": at("ClosestHit"), "S": at("Miss"),
}


def of_primitive(*parts):
    return AT_MESH.but(mesh=triangles(primitive=f.struct(list(parts), 32)))


def at_place(place, part, name):
    """An entry point with a part at a place, and where a fault of the part is said. A vertex puts out a position too, and a
    primitive the indices of a triangle, where the part doesn't have its own."""
    if place == "prim":
        return (of_primitive(part, INDICES) if name == "CullPrimitive" else of_primitive(part)), "Result"
    case = AT_STAGE[place[0]]
    if place == "Vo":
        return case.but(declared=(f.struct([part, POSITION], 32), None)), "Result"
    return (case.but(arguments=(part,)), "Argument") if place[1] == "i" else (case.but(declared=part), "Result")


def said(where, fault):
    return {"Argument": [0, fault]} if where == "Argument" else {"Result": fault}


def built_ins():
    found = []
    for name, places, ty, neighbor in BUILT_INS:
        for chosen in (ty, neighbor):
            case, where = at_place(places.split()[0], (TYPES[chosen], f.built_in(name)), name)
            fault = said(where, {"InvalidBuiltInType": [name, InnerOf(TYPES[chosen])]})
            found.append(entry_row(case) if chosen == ty else entry_row(case, fault))
    for name in NEVER_VISIBLE:
        part = U32, f.built_in(name)
        found.append(entry_row(AT_FRAGMENT.but(arguments=(part,)), {"Argument": [0, {"InvalidBuiltInStage": name}]}))
    return rows_of("rules/built-ins", found)


# Each interpolation with each sampling of what goes into a fragment: a float and an integer, or three for each vertex.

INTERPOLATIONS = [None, "Perspective", "Linear", "Flat", "PerVertex"]
SAMPLINGS = [None, "Center", "Centroid", "Sample", "First", "Either"]
SMOOTH = ["Center", "Centroid", "Sample"]
PAIRS = {"Perspective": SMOOTH, "Linear": SMOOTH, "Flat": ["First", "Either"], "PerVertex": []}


def interpolation_fault(interpolation, sampling, is_float, is_asked_for=True):
    """What is said of a part, by the list of a location. Three for each vertex are at Fragment."""
    if interpolation == "PerVertex" and sampling not in (None, "Center"):
        return "InvalidPerVertexSampling"
    if interpolation and sampling and sampling not in PAIRS[interpolation]:
        return {"InvalidInterpolationSamplingCombination": {"interpolation": interpolation, "sampling": sampling}}
    if interpolation == "PerVertex" or not is_asked_for:
        return None
    if is_float:
        return None if interpolation else "MissingInterpolation"
    return None if interpolation == "Flat" else "InvalidInterpolationForInteger"


def interpolations():
    found = []
    for interpolation in INTERPOLATIONS:
        for sampling in SAMPLINGS:
            for ty in (F32, U32):
                chosen = f.array(ty, 3) if interpolation == "PerVertex" else ty
                case = AT_FRAGMENT.but(arguments=((chosen, f.location(5, interpolation, sampling)),))
                fault = interpolation_fault(interpolation, sampling, ty == F32)
                found.append(entry_row(case, fault and said("Argument", fault)))
    return rows_of("rules/interpolations", found)


# Other items.

def item_rows():
    takes = lambda case, ty, binding: case.but(arguments=((ty, binding),))
    gives = lambda case, ty, binding=None: case.but(declared=(ty, binding))
    unsupported = lambda capability: {"Argument": [0, {"UnsupportedCapability": [capability]}]}
    primitive = lambda interpolation: f.location(0, interpolation, per_primitive=True)
    needs_nothing = lambda case: case.but(capabilities=())
    at_groups = lambda *size: takes(AT_COMPUTE, U32, f.built_in("SubgroupId")).but(workgroup_size=size)
    several = {"Argument": [0, "InvalidMultiDimensionalSubgroupBuiltIn"]}
    any_hit = takes(at("AnyHit"), U32, f.built_in("PrimitiveIndex")).but(capabilities=("RAY_TRACING_PIPELINE",))
    drawn = takes(AT_MESH, U32, f.built_in("DrawIndex"))
    sampled = f.location(0, "Perspective", "Sample")
    not_per_primitive = {"Argument": [0, "InvalidPerPrimitive"]}
    return [
        (at_groups(8, 1, 1),),
        (at_groups(8, 2, 1), several),
        (drawn,),
        (drawn.but(payload=PAYLOAD), {"Argument": [0, {"InvalidBuiltInStage": "DrawIndex"}]}),
        (any_hit,),
        (needs_nothing(takes(AT_FRAGMENT, U32, f.built_in("PrimitiveIndex"))), unsupported("PRIMITIVE_INDEX"), *WITH_ALL),
        (needs_nothing(takes(AT_FRAGMENT, COLOR, f.built_in("MeshTaskSize"))), unsupported("MESH_SHADER")),
        (takes(AT_FRAGMENT, F32, primitive(None)),),
        (takes(AT_VERTEX, F32, primitive(None)), not_per_primitive),
        (needs_nothing(takes(AT_FRAGMENT, F32, sampled)), unsupported("MULTISAMPLED_SHADING"), *WITH_ALL),
        (needs_nothing(takes(AT_FRAGMENT, F32, primitive("Perspective"))), unsupported("MESH_SHADER"), *WITH_ALL),
        (of_primitive(smooth(F32, 0), INDICES), {"Result": "MissingPerPrimitive"}),
        (of_primitive(by_primitive(F32, 4), INDICES),),
        (AT_MESH.but(mesh=triangles(vertex=f.struct([POSITION, by_primitive(F32, 0)], 32))), {"Result": "InvalidPerPrimitive"}),
        (takes(AT_FRAGMENT, BOOL, f.location(0, "Perspective")), {"Argument": [0, {"InvalidType": TypeOf(BOOL)}]}),
        (takes(AT_FRAGMENT, SOURCES, None), {"Argument": [0, {"InvalidInputAttributeInStage": ["blend_src", "Fragment"]}]}),
        (gives(AT_VERTEX, SOURCES), {"Result": {"InvalidAttributeInStage": ["blend_src", "Vertex"]}}),
    ] + member_rows(gives)


def member_rows(gives):
    """Structs with a location twice, and with a member without a binding; and an item without one."""
    unbound = lambda case: case.but(flags=tuple(f.without(FLAGS, "BINDINGS")))
    colliding = f.struct([POSITION, smooth(F32, 1), smooth(F32, 2), smooth(F32, 2)], 28)
    partly = f.struct([smooth(F32, 3), (U32, None), POSITION], 24)
    return [
        (gives(AT_VERTEX, colliding), {"Result": {"BindingCollision": {"location": 2}}}),
        (gives(AT_VERTEX, partly), {"Result": {"MemberMissingBinding": 1}}),
        (gives(AT_VERTEX, U32), {"Result": "MissingBinding"}),
        (unbound(gives(AT_VERTEX, colliding)),),
        (unbound(gives(AT_VERTEX, partly)),),
    ]


def items():
    return rows_of("rules/items", [entry_row(*row) for row in item_rows()])


# Globals, each alone in its module.

READ = f.storage("LOAD")
BOTH = f.storage("LOAD", "STORE")
WRITE_ONLY = f.storage("STORE")
SAMPLED = f.image({"Sampled": {"kind": "Float", "multi": False}})
DEPTH = f.image({"Depth": {"multi": False}})
EXTERNAL = f.image("External")
IMAGE = f.storage_image("R32Uint", ["LOAD"])
NORMS = [f.storage_image(name, ["LOAD"]) for name in
         ("R16Unorm", "R16Snorm", "Rg16Unorm", "Rg16Snorm", "Rgba16Unorm", "Rgba16Snorm")]
STRUCTURE = f.acceleration_structure(False)
# Types 0 and 1 are u32 and i32; what spoils the layouts of a bad type are these.
BAD = f.info([], (1, 7), (0, 8), 9)

# A space, a type that may lie there, whether it is bound, and what it has to be usable for.
DATA, SHARED = ["DATA", "SIZED"], ["HOST_SHAREABLE", "CREATION_RESOLVED"]
LINES = [
    (READ, U32, True, ["DATA", *SHARED]), (BOTH, U32, True, ["DATA", *SHARED]),
    ("Uniform", U32, True, ["DATA", "SIZED", "COPY", *SHARED]), ("Handle", f.sampler(), True, []),
    ("Private", U32, False, ["CREATION_RESOLVED", "CONSTRUCTIBLE"]), ("WorkGroup", U32, False, DATA),
    ("TaskPayload", U32, False, DATA), ("Immediate", U32, False, ["DATA", "SIZED", "COPY", "HOST_SHAREABLE"]),
    ("RayPayload", U32, False, DATA), ("IncomingRayPayload", U32, False, DATA),
]


def global_row(space, ty, is_bound, fault=None, told=f.GOOD, array_told=f.GOOD, flags=FLAGS, capabilities=CAPABILITIES,
               init=None, decorations=(), size=None):
    """A global, and that it is accepted or has this fault. `told` is what is known of every type but binding arrays, and `size`
    of the size of its type."""
    module = Module(U32, I32)
    handle = module.type(ty)
    module.global_(space, handle, 1 if is_bound else None, init, decorations)
    if init is not None:
        literals = [(f.literal(f.SINT), 1), (f.literal(f.UINT), 0)]
        for expression, of in [("RayQueryProceedResult", 1), *literals, ({"Override": module.override(0)}, 0)]:
            module.global_expression(expression, of)
    infos = [array_told if "BindingArray" in kind["inner"] else told for kind in module.parts["types"]]
    sizes = [size if index == handle else None for index in range(len(infos))]
    # An accepted payload has a size that is known, or its module doesn't fit; a row of a size that isn't known has one here.
    if space == "TaskPayload" and size is None:
        sizes[handle] = 4
    expected = verdicts.ok() if fault is None else verdicts.in_global(0, fault)
    return document(module, flags, capabilities, sizes=sizes, infos=infos), expected


def unsupported(capability):
    return {"UnsupportedCapability": [capability]}


def missing(required, seen):
    return {"MissingTypeFlags": {"required": required, "seen": seen}}


def rows_by_line():
    """Each line of the table by space: good with just its flags, refused without each of them; bound the other way."""
    found = []
    for space, ty, is_bound, required in LINES:
        found.append(global_row(space, ty, is_bound, told=f.info(required)))
        for flag in required:
            seen = f.without(TYPE_FLAGS, flag)
            found.append(global_row(space, ty, is_bound, missing(required, seen), told=f.info(seen)))
        found.append(global_row(space, ty, not is_bound, "InvalidBinding"))
        found.append(global_row(space, ty, not is_bound, flags=f.without(FLAGS, "BINDINGS")))
    return found


def wrong(space, is_bound, fault, ty=U32, **parts):
    """A global of which everything is wrong, on a target that can do nothing, but for what is given."""
    settled = {"told": BAD, "capabilities": [], "init": 0, "decorations": ["COHERENT", "VOLATILE"], "size": 0, **parts}
    return global_row(space, ty, is_bound, fault, **settled)


def first_faults():
    flagless = lambda required: missing(required, [])
    needs_rays = unsupported("RAY_TRACING_PIPELINE")
    return [
        wrong("Function", True, {"InvalidUsage": "Function"}),
        wrong(WRITE_ONLY, False, {"Alignment": [WRITE_ONLY, 1, 7]}),
        wrong("Uniform", False, {"Alignment": ["Uniform", 0, 8]}),
        wrong("Handle", False, {"InvalidType": "Handle"}),
        wrong("Private", True, flagless(["CREATION_RESOLVED", "CONSTRUCTIBLE"])),
        wrong("WorkGroup", True, flagless(DATA)),
        wrong("TaskPayload", True, unsupported("MESH_SHADER")),
        wrong("Immediate", True, unsupported("IMMEDIATES")),
        wrong("RayPayload", True, needs_rays),
        wrong("IncomingRayPayload", True, needs_rays),
    ]


def storage_step_by_step():
    unlaid = f.without(FLAGS, "STRUCT_LAYOUTS")
    coherent, volatile = "MEMORY_DECORATION_COHERENT", "MEMORY_DECORATION_VOLATILE"
    return [
        wrong(WRITE_ONLY, False, "StorageAddressSpaceWriteOnlyNotSupported", flags=unlaid),
        wrong(READ, False, missing(["DATA", *SHARED], []), flags=unlaid),
        wrong(READ, False, "InvalidBinding", flags=unlaid, told=f.GOOD),
        wrong(READ, True, "CoherentNotSupported", told=f.GOOD),
        wrong(READ, True, "VolatileNotSupported", told=f.GOOD, capabilities=[coherent]),
        wrong(READ, True, {"InitializerNotAllowed": READ}, told=f.GOOD, capabilities=[coherent, volatile]),
    ]


def needing():
    """Globals that need a capability: accepted with all, refused without it, accepted with it alone."""
    textures = "TEXTURE_AND_SAMPLER_BINDING_ARRAY"
    found = []
    for space, ty, is_bound, needed in [
        (READ, f.binding_array(U32), True, "STORAGE_BUFFER_BINDING_ARRAY"),
        ("Uniform", f.binding_array(U32), True, "BUFFER_BINDING_ARRAY"),
        ("Handle", f.binding_array(IMAGE), True, "STORAGE_TEXTURE_BINDING_ARRAY"),
        ("Handle", f.binding_array(SAMPLED), True, textures),
        ("Handle", f.binding_array(DEPTH), True, textures),
        ("Handle", f.binding_array(f.sampler()), True, textures),
        ("Handle", f.binding_array(STRUCTURE), True, "ACCELERATION_STRUCTURE_BINDING_ARRAY"),
        ("TaskPayload", U32, False, "MESH_SHADER"),
        ("Immediate", U32, False, "IMMEDIATES"),
        ("RayPayload", U32, False, "RAY_TRACING_PIPELINE"),
        ("IncomingRayPayload", U32, False, "RAY_TRACING_PIPELINE"),
        *[("Handle", norm, True, "STORAGE_TEXTURE_16BIT_NORM_FORMATS") for norm in NORMS],
    ]:
        found.append(global_row(space, ty, is_bound))
        lacking = global_row(space, ty, is_bound, unsupported(needed), capabilities=f.without(CAPABILITIES, needed))
        found.append(lacking + WITH_ALL)
        found.append(global_row(space, ty, is_bound, capabilities=[needed]))
    return found


def of_arrays():
    """A binding array in each space, which is judged by what it has."""
    array, norms = f.binding_array(U32), f.binding_array(NORMS[0])
    arrays = "STORAGE_TEXTURE_BINDING_ARRAY"
    alone = lambda base, fault=None: global_row("Handle", f.binding_array(base), True, fault, capabilities=[])
    # The check of a global by itself accepts these two; no module with one fits.
    unbindable = lambda base: (alone(base)[0], verdicts.NOT_FIT)
    lacks = lambda needed, capabilities: global_row(
        "Handle", norms, True, unsupported(needed), capabilities=capabilities) + WITH_ALL
    spaces = ["Function", "Private", "WorkGroup", "TaskPayload", "Immediate", "RayPayload", "IncomingRayPayload"]
    return [
        global_row("Handle", norms, True),
        lacks(arrays, []),
        lacks("STORAGE_TEXTURE_16BIT_NORM_FORMATS", [arrays]),
        *[wrong(space, False, {"InvalidUsage": space}, array) for space in spaces],
        global_row("Uniform", array, True, array_told=BAD),
        global_row("Uniform", array, True, {"Alignment": ["Uniform", 0, 8]}, told=BAD),
        unbindable(EXTERNAL),
        unbindable(f.ray_query()),
        alone(U32, {"InvalidType": "Handle"}),
    ]


def layouts_and_sizes():
    unlaid = {"told": f.info(TYPE_FLAGS, (1, 7), (0, 8), 9), "flags": f.without(FLAGS, "STRUCT_LAYOUTS")}
    return [
        global_row("Uniform", U32, True, **unlaid),
        global_row("Immediate", U32, False, {"InvalidImmediateType": 9}, **unlaid),
        global_row("TaskPayload", U32, False, "ZeroSizedTaskPayload", size=0),
        global_row("TaskPayload", U32, False, size=3),
        global_row("WorkGroup", U32, False, size=0),
    ]


def decorations():
    coherent, volatile = ("COHERENT",), ("VOLATILE",)
    no_coherent = f.without(CAPABILITIES, "MEMORY_DECORATION_COHERENT")
    no_volatile = f.without(CAPABILITIES, "MEMORY_DECORATION_VOLATILE")
    neither = [name for name in no_coherent if name in no_volatile]
    storage = lambda decorations, fault=None, **parts: global_row(READ, U32, True, fault, decorations=decorations, **parts)
    found = [
        storage(coherent), storage(volatile), storage(coherent + volatile),
        storage(coherent, "CoherentNotSupported", capabilities=no_coherent) + WITH_ALL,
        storage(volatile, "VolatileNotSupported", capabilities=no_volatile) + WITH_ALL,
        storage(coherent, capabilities=no_volatile), storage(volatile, capabilities=no_coherent),
        storage(coherent + volatile, "CoherentNotSupported", capabilities=neither) + WITH_ALL,
    ]
    refused = "InvalidMemoryDecorationsAddressSpace"
    for space, ty, is_bound, _ in LINES[2:]:
        found.append(global_row(space, ty, is_bound, refused, decorations=coherent, capabilities=no_coherent))
        found.append(global_row(space, ty, is_bound, refused, decorations=volatile))
    return found


def initializers():
    private = lambda init, fault=None: global_row("Private", U32, False, fault, init=init)
    work_group = lambda init: global_row("WorkGroup", U32, False, {"InitializerNotAllowed": "WorkGroup"}, init=init)
    return [
        work_group(0), work_group(2), private(0, "InitializerExprType"), private(1, "InitializerType"), private(2), private(3),
    ]


def globals_():
    tables = [
        rows_by_line, first_faults, storage_step_by_step, needing, of_arrays, layouts_and_sizes, decorations, initializers,
    ]
    return rows_of("rules/globals", [row for table in tables for row in table()])
