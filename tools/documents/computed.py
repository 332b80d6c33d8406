"""Rows of what is computed beside types: uses of globals, stages, layouts and flags of types, and what meshes output. Documents
without facts, whose verdicts are worked out from docs/TYPES.md."""

import form as f
import verdicts
from form import BOOL, COMPUTE_LIKE, F32, I32, STAGES, U32, UINT
from module import Module, function
from statements import rows_of
from typed import access, cooperative, document, member

VEC2F, VEC3F, VEC4F = (f.vector(size, f.FLOAT) for size in ("Bi", "Tri", "Quad"))
VEC2I, VEC2U, VEC3U, VEC4U = f.vector("Bi", f.SINT), f.vector("Bi", UINT), f.vector("Tri", UINT), f.vector("Quad", UINT)
READ, WRITE, BOTH, QUERY, ATOMIC, NONE = ["READ"], ["WRITE"], ["READ", "WRITE"], ["QUERY"], ["ATOMIC"], []


def sample(image, sampler, coordinate, level="Zero"):
    return {"ImageSample": {
        "image": image, "sampler": sampler, "gather": None, "coordinate": coordinate, "array_index": None, "offset": None,
        "level": level, "depth_ref": None, "clamp_to_edge": False,
    }}


def image_load(image, coordinate, level=None):
    return {"ImageLoad": {"image": image, "coordinate": coordinate, "array_index": None, "sample": None, "level": level}}


# Uses of globals.

GLOBALS = [
    ("numbers", f.storage("LOAD", "STORE"), f.array(U32, 0)), ("counter", f.storage("LOAD", "STORE"), f.atomic(UINT)),
    ("texture", "Handle", f.image({"Sampled": {"kind": "Float", "multi": False}})), ("sampler", "Handle", f.sampler()),
    ("target", "Handle", f.storage_image("R32Uint", ["LOAD", "STORE", "ATOMIC"])), ("shared", "WorkGroup", U32),
    ("structure", "Handle", f.acceleration_structure(False)), ("private", "Private", F32),
]
# Behind the globals: zero values, and a local that is a ray query.
VALUES = [U32, I32, VEC2F, VEC2U, VEC4U, F32]
NAMES = [name for name, _, _ in GLOBALS] + ["u32", "i32", "vec2f", "vec2u", "vec4u", "f32", "query", "NEXT"]
AT = {name: at for at, name in enumerate(NAMES)}
NEXT = AT["NEXT"]


def module_of_globals():
    module = Module(*VALUES)
    for binding, (_, space, ty) in enumerate(GLOBALS):
        module.global_(space, ty, None if space in ("WorkGroup", "Private") else binding)
    return module


def expressions_of(module, made=()):
    globals_ = [f.global_variable(at) for at in range(len(GLOBALS))]
    return [*globals_, *[f.zero(module.type(ty)) for ty in VALUES], f.local_variable(0), *made]


def used(uses, made=(), body=(), stages=STAGES, stage="Compute", callee=None):
    """An entry point with these expressions, which are emitted first, and statements. Its globals have these uses, and all others
    none."""
    module = module_of_globals()
    functions = []
    if callee is not None:
        module.function(callee(module))
        functions = [STAGES]
    emitted = [f.emit(NEXT, NEXT + len(made))] if made else []
    made_function = function(expressions_of(module, made), [*emitted, *body], [module.type(f.ray_query())])
    module.entry_point(stage, made_function, [1, 1, 1] if stage == "Compute" else (0, 0, 0))
    module.ray_descriptor(0)
    told = [uses.get(name, NONE) for name, _, _ in GLOBALS]
    return document(module), verdicts.ok(functions, [verdicts.entry(stages, told)])


def loader(module):
    """A function that loads what two globals point to."""
    made = [f.global_variable(AT["private"]), f.global_variable(AT["shared"]), f.load(0), f.load(1)]
    return function(made, [f.emit(2, 4)])


def taker(ty):
    """A function with an argument of a type."""
    return lambda module: function(arguments=[(module.type(ty), None)])


def uniform_loaded():
    """A uniform load from the memory of a work group, whose result stands behind the others, and is in no Emit."""
    told, verdict = used({"shared": READ}, stages=COMPUTE_LIKE)
    made = told["module"]["entry_points"][0]["function"]
    made["expressions"].append({"WorkGroupUniformLoadResult": {"ty": 0}})
    made["body"].append(f.uniform_load(AT["shared"], NEXT))
    return told, verdict


def uses():
    at, store = AT.__getitem__, lambda to, value: {"Store": {"pointer": to, "value": value}}
    initialize = {"Initialize": {"acceleration_structure": at("structure"), "descriptor": at("u32")}}
    return rows_of("computed/uses", [
        used({}),
        used({"numbers": READ}, [access(at("numbers"), at("u32")), f.load(NEXT)]),
        used({}, [access(at("numbers"), at("u32"))]),
        used({"numbers": WRITE}, [access(at("numbers"), at("u32"))], [store(NEXT, at("u32"))]),
        used({"numbers": QUERY}, [{"ArrayLength": at("numbers")}]),
        used({"counter": BOTH}, [], [f.atomic_of("Add", at("counter"), at("u32"), None)]),
        used({"texture": READ, "sampler": READ}, [sample(at("texture"), at("sampler"), at("vec2f"))]),
        used({"texture": READ}, [image_load(at("texture"), at("vec2u"), at("i32"))]),
        used({"texture": QUERY}, [{"ImageQuery": {"image": at("texture"), "query": "NumLevels"}}]),
        used({"target": READ}, [image_load(at("target"), at("vec2u"))]),
        used({"target": WRITE}, [], [f.image_store(at("target"), at("vec2u"), None, at("vec4u"))]),
        used({"target": ATOMIC}, [], [f.image_atomic("Add", at("target"), at("vec2u"), at("u32"))]),
        used({"structure": READ}, [], [{"RayQuery": {"query": at("query"), "fun": initialize}}]),
        used({"private": READ}, [f.load(at("private"))]),
        uniform_loaded(),
        # Dead code counts too.
        used({"private": WRITE}, [], [f.return_(), store(at("private"), at("f32"))]),
        # A call joins in what its function uses. What is given to it is read and written, but a resource read.
        used({"private": READ, "shared": READ}, [], [f.call(0)], callee=loader),
        used({"texture": READ}, [], [f.call(0, [at("texture")])], callee=taker(GLOBALS[at("texture")][2])),
        used({"private": BOTH}, [], [f.call(0, [at("private")])], callee=taker(f.pointer(F32, "Private"))),
    ])


# Stages of expressions: in a fragment shader, and, where they take that away, in a compute shader.

def at_stage(stage, made, stages, **settings):
    """An entry point with these expressions; refused where it may not run at its stage."""
    module = module_of_globals()
    body = [f.emit(NEXT, NEXT + len(made))]
    made_function = function(expressions_of(module, made), body, [module.type(f.ray_query())])
    module.entry_point(stage, made_function, [1, 1, 1] if stage == "Compute" else (0, 0, 0))
    if stage.upper() not in stages:
        return document(module, **settings), verdicts.in_entry_point(0, "ForbiddenStageOperations")
    told = [READ if name in ("texture", "sampler") and "ImageSample" in made[-1] else NONE for name, _, _ in GLOBALS]
    return document(module, **settings), verdicts.ok([], [verdicts.entry(stages, told)])


def called(kills):
    """A fragment shader that calls a function, which kills or doesn't, for a value."""
    module = module_of_globals()
    module.function(function([f.zero(0)], (["Kill"] if kills else []) + [f.return_(0)], result=(0, None)))
    stages = ["FRAGMENT"] if kills else STAGES
    made = function(expressions_of(module, [f.call_result(0)]), [f.call(0, (), NEXT)], [module.type(f.ray_query())])
    module.entry_point("Fragment", made)
    return document(module), verdicts.ok([stages], [verdicts.entry(stages, [NONE] * len(GLOBALS))])


def summed(allowed):
    """The sum over a subgroup, on a target that allows these stages."""
    module = module_of_globals()
    body = [f.collective("Add", "Reduce", AT["u32"], NEXT)]
    made = function(expressions_of(module, [f.operation_result(0)]), body, [module.type(f.ray_query())])
    module.entry_point("Compute", made, [1, 1, 1])
    told = document(module, subgroup_stages=allowed)
    if "COMPUTE" not in allowed:
        return told, verdicts.in_entry_point(0, "ForbiddenStageOperations")
    return told, verdicts.ok([], [verdicts.entry(allowed, [NONE] * len(GLOBALS))])


def stages():
    at = AT.__getitem__
    by_level = lambda level: [sample(at("texture"), at("sampler"), at("vec2f"), level)]
    derivative = [{"Derivative": {"axis": "X", "ctrl": "Fine", "expr": at("vec2f")}}]
    return rows_of("computed/stages", [
        at_stage("Fragment", derivative, ["FRAGMENT"]),
        at_stage("Compute", derivative, ["FRAGMENT"]),
        at_stage("Vertex", derivative, ["FRAGMENT"]),
        at_stage("Fragment", by_level("Auto"), ["FRAGMENT"]),
        at_stage("Compute", by_level("Auto"), ["FRAGMENT"]),
        at_stage("Fragment", by_level({"Bias": at("f32")}), ["FRAGMENT"]),
        at_stage("Compute", by_level({"Bias": at("f32")}), ["FRAGMENT"]),
        at_stage("Compute", by_level("Zero"), STAGES),
        at_stage("Compute", by_level({"Exact": at("f32")}), STAGES),
        at_stage("Compute", by_level({"Gradient": {"x": at("vec2f"), "y": at("vec2f")}}), STAGES),
        called(True), called(False),
        summed(["FRAGMENT", "COMPUTE"]), summed(["FRAGMENT"]),
    ])


# Types: what each can be used for, and its layouts. By the first global that asks.

def of_global(space, ty, fault, binding=0):
    module = Module()
    module.global_(space, ty, binding)
    verdict = verdicts.ok() if fault is None else verdicts.in_global(0, fault(module) if callable(fault) else fault)
    return document(module), verdict


def spoilt(space, reason, ty=None):
    """A bad layout, of the global's own type or of this one."""
    own = lambda module: module.parts["global_variables"][0]["ty"] if ty is None else module.type(ty)
    return lambda module: {"Alignment": [space, own(module), reason]}


def struct(span, *members):
    """A struct; each member is a type and its offset."""
    return {"Struct": {
        "members": [{"name": None, "ty": ty, "binding": None, "offset": offset} for ty, offset in members], "span": span,
    }}


IN_UNIFORM = ["DATA", "SIZED", "COPY", "HOST_SHAREABLE", "CREATION_RESOLVED"]
VALUE_FLAGS = ["DATA", "SIZED", "COPY", "CREATION_RESOLVED", "ARGUMENT", "CONSTRUCTIBLE"]


def lacking(required, seen):
    return {"MissingTypeFlags": {"required": required, "seen": seen}}


def types():
    stored = f.storage("LOAD")
    numbers = f.array(U32, 0)
    small = struct(8, (U32, 0))
    half = f.scalar(f.scalar_of("Float", 2))
    open_flags = ["DATA", "HOST_SHAREABLE", "CREATION_RESOLVED"]
    return rows_of("computed/types", [
        of_global(stored, numbers, None),
        of_global(stored, struct(4, (U32, 0), (numbers, 4)), None),
        of_global(stored, struct(8, (numbers, 0), (U32, 4)), spoilt(stored, 0)),
        of_global("Uniform", numbers, spoilt("Uniform", 1)),
        of_global("Uniform", f.array(U32, 0, 16), lacking(IN_UNIFORM, open_flags)),
        of_global("WorkGroup", numbers, lacking(["DATA", "SIZED"], open_flags), None),
        of_global(stored, BOOL, lacking(["DATA", "HOST_SHAREABLE", "CREATION_RESOLVED"], VALUE_FLAGS)),
        of_global("Private", BOOL, None, None),
        of_global("Uniform", f.array(U32, 4), spoilt("Uniform", 1)),
        of_global("Uniform", f.array(U32, 4, 16), None),
        of_global("Uniform", struct(16, (small, 4)), spoilt("Uniform", 2)),
        of_global("Uniform", struct(32, (small, 0), (U32, 12)), spoilt("Uniform", 3)),
        of_global("Uniform", struct(32, (small, 0), (U32, 16)), None),
        of_global("Uniform", struct(32, (f.array(U32, 4), 0)), spoilt("Uniform", 1, f.array(U32, 4))),
        of_global("Uniform", f.matrix("Quad", "Tri", f.FLOAT), None),
        of_global("Uniform", f.matrix("Quad", "Tri", f.SINT), spoilt("Uniform", 0)),
        of_global(stored, f.atomic(UINT), None),
        of_global("Uniform", f.atomic(UINT), lacking(IN_UNIFORM, ["DATA", "SIZED", "HOST_SHAREABLE", "CREATION_RESOLVED"])),
        of_global(stored, f.atomic(f.DOUBLE), spoilt(stored, 0)),
        of_global("Immediate", F32, None, None),
        of_global("Immediate", half, {"InvalidImmediateType": 1}, None),
        of_global("Private", cooperative(0), None, None),
        of_global(stored, cooperative(0), lacking(open_flags, VALUE_FLAGS)),
        of_global(stored, struct(8, (U32, 2)), spoilt(stored, 0)),
        of_global(stored, struct(10, (U32, 0)), spoilt(stored, 0)),
        of_global(stored, struct(4), spoilt(stored, 0)),
        of_global(stored, f.array(VEC3F, 2, 12), spoilt(stored, 0)),
        of_global(stored, f.array(VEC3F, 2, 16), None),
        of_global(stored, f.array(U32, 65536, 65536), spoilt(stored, 0)),
        of_global(stored, f.array(U32, 65535, 65536), None),
    ])


# Mesh outputs: by the members of the output variable, each a built-in and a type, and by the built-in of a primitive.

VERTEX = {"Struct": {"members": [{
    "name": None, "ty": VEC4F, "binding": f.built_in(f.position()), "offset": 0,
}], "span": 16}}


def primitive(built_in, ty):
    return {"Struct": {"members": [{"name": None, "ty": ty, "binding": f.built_in(built_in), "offset": 0}], "span": 16}}


TRIANGLE = primitive("TriangleIndices", VEC3U)


def meshes_of(members, topology="Triangles", of=TRIANGLE, fault=None, maxima=(3, 1)):
    """A mesh shader whose output variable has these members; what it declares is what they imply."""
    module = Module()
    sized = {"Vertices": 48, "Primitives": 16}
    offsets = [sum((sized.get(name, 0) if isinstance(ty, dict) and "Array" in ty else 16) for name, ty in members[:at])
               for at in range(len(members))]
    output = {"Struct": {"members": [
        {"name": None, "ty": ty, "binding": None if name is None else f.built_in(name), "offset": offset}
        for (name, ty), offset in zip(members, offsets)
    ], "span": 128}}
    module.global_("WorkGroup", output)
    declared = {
        "topology": topology, "max_vertices": maxima[0], "max_vertices_override": None, "max_primitives": maxima[1],
        "max_primitives_override": None, "vertex_output_type": module.type(VERTEX), "primitive_output_type": module.type(of),
        "output_variable": 0,
    }
    module.entry_point("Mesh", function(), [1, 1, 1], mesh=declared)
    verdict = verdicts.ok([], [verdicts.entry(STAGES, [READ])]) if fault is None else verdicts.in_entry_point(0, fault)
    return document(module), verdict


def meshes():
    vertices, primitives = ("Vertices", f.array(VERTEX, 3, 16)), ("Primitives", f.array(TRIANGLE, 1, 16))
    numbers = [("VertexCount", U32), ("PrimitiveCount", U32)]
    whole = [vertices, primitives, *numbers]
    with_primitive = lambda of: [vertices, ("Primitives", f.array(of, 1, 16)), *numbers]
    line, point, none = primitive("LineIndices", VEC2U), primitive("PointIndex", U32), primitive("CullPrimitive", BOOL)
    wrong_type, wrong_field = "BadMeshOutputVariableType", "BadMeshOutputVariableField"
    return rows_of("computed/mesh", [
        meshes_of(whole),
        meshes_of(with_primitive(line), "Lines", line),
        meshes_of(with_primitive(point), "Points", point),
        meshes_of(with_primitive(none), "Triangles", none, wrong_type),
        meshes_of(whole, "Lines", fault=wrong_type),
        meshes_of(whole, maxima=(4, 1), fault=wrong_type),
        meshes_of(whole, maxima=(3, 2), fault=wrong_type),
        meshes_of(whole[1:], fault=wrong_type),
        meshes_of([vertices, *numbers], fault=wrong_type),
        meshes_of(whole[:3], fault=wrong_type),
        meshes_of([vertices, primitives, numbers[1]], fault=wrong_type),
        meshes_of([vertices, primitives, ("VertexCount", I32), numbers[1]], fault=wrong_field),
        meshes_of([vertices, primitives, *numbers, ("VertexCount", U32)], fault=wrong_field),
        meshes_of([vertices, primitives, *numbers, (None, U32)], fault=wrong_field),
        meshes_of([("Vertices", U32), primitives, *numbers], fault=wrong_field),
        meshes_of([vertices, ("Primitives", U32), *numbers], fault=wrong_field),
    ])
