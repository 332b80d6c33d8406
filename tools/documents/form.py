"""The parts of a document by name: sets, types, expressions and statements, as docs/MODULES.md has their forms.

A type is written with the types that it names inside it, and not with their handles: a `Module` puts them where they belong.
"""

FLAGS = ["EXPRESSIONS", "BLOCKS", "STRUCT_LAYOUTS", "BINDINGS"]
STAGES = ["VERTEX", "FRAGMENT", "COMPUTE", "MESH", "TASK", "RAY_GENERATION", "ANY_HIT", "CLOSEST_HIT", "MISS"]
COMPUTE_LIKE = ["COMPUTE", "MESH", "TASK"]
OPERATIONS = ["BASIC", "VOTE", "ARITHMETIC", "BALLOT", "SHUFFLE", "SHUFFLE_RELATIVE", "QUAD"]
TYPE_FLAGS = ["DATA", "SIZED", "COPY", "IO_SHAREABLE", "HOST_SHAREABLE", "CREATION_RESOLVED", "ARGUMENT", "CONSTRUCTIBLE"]
GLOBAL_USES = ["READ", "WRITE", "QUERY", "ATOMIC"]
CAPABILITIES = [
    "ACCELERATION_STRUCTURE_BINDING_ARRAY", "BUFFER_BINDING_ARRAY", "CLIP_DISTANCES", "CULL_DISTANCE", "DRAW_INDEX",
    "EARLY_DEPTH_TEST", "IMMEDIATES", "MEMORY_DECORATION_COHERENT", "MEMORY_DECORATION_VOLATILE", "MESH_SHADER",
    "MESH_SHADER_POINT_TOPOLOGY", "MULTISAMPLED_SHADING", "MULTIVIEW", "PER_VERTEX", "PRIMITIVE_INDEX",
    "RAY_TRACING_PIPELINE", "SHADER_BARYCENTRICS", "SHADER_FLOAT32_ATOMIC", "SHADER_INT64_ATOMIC_ALL_OPS",
    "SHADER_INT64_ATOMIC_MIN_MAX", "STORAGE_BUFFER_BINDING_ARRAY", "STORAGE_TEXTURE_16BIT_NORM_FORMATS",
    "STORAGE_TEXTURE_BINDING_ARRAY", "SUBGROUP", "SUBGROUP_BARRIER", "TEXTURE_AND_SAMPLER_BINDING_ARRAY", "TEXTURE_ATOMIC",
    "TEXTURE_INT64_ATOMIC",
]

HERE = [3, 7]
NOWHERE = [0, 0]


def without(names, *gone):
    """A set without these names."""
    assert all(name in names for name in gone)
    return [name for name in names if name not in gone]


def met(*sets):
    """The stages that all of these have."""
    return [stage for stage in STAGES if all(stage in some for some in sets)]


# What is known of types.

def info(flags=TYPE_FLAGS, storage=4, uniform=4, immediates=None):
    """What is known of a type: its flags, its two layouts (an alignment, or the type that spoils it and why), and why it is no
    immediate, if it is none."""
    return {
        "flags": flags,
        "storage_layout": layout(storage),
        "uniform_layout": layout(uniform),
        "immediates_compatibility": {"Ok": None} if immediates is None else {"Err": immediates},
    }


def layout(alignment):
    return {"Ok": alignment} if isinstance(alignment, int) else {"Err": list(alignment)}


GOOD = info()
UNSHARED = info(without(TYPE_FLAGS, "IO_SHAREABLE"))


# Types.

def scalar_of(kind, width):
    return {"kind": kind, "width": width}


UINT, SINT, FLOAT = scalar_of("Uint", 4), scalar_of("Sint", 4), scalar_of("Float", 4)
WIDE, BOOLEAN, DOUBLE = scalar_of("Uint", 8), scalar_of("Bool", 1), scalar_of("Float", 8)


def scalar(of):
    return {"Scalar": of}


def vector(size, of):
    return {"Vector": {"size": size, "scalar": of}}


def matrix(columns, rows, of):
    return {"Matrix": {"columns": columns, "rows": rows, "scalar": of}}


def cooperative(of):
    return {"CooperativeMatrix": {"scalar": of, "detail": 0}}


def atomic(of):
    return {"Atomic": of}


def pointer(base, space):
    return {"Pointer": {"base": base, "space": space}}


def array(base, count, stride=4):
    return {"Array": {"base": base, "size": {"Constant": count} if count else "Dynamic", "stride": stride}}


def binding_array(base):
    return {"BindingArray": {"base": base, "size": "Dynamic"}}


def struct(members, span):
    """A struct; each member is a type and its binding, if it has one."""
    return {"Struct": {"members": [member(ty, binding) for ty, binding in members], "span": span}}


def member(ty, binding):
    return {"name": None, "ty": ty, "binding": binding, "offset": 0}


def image(of_class, dim="D2"):
    return {"Image": {"dim": dim, "arrayed": False, "class": of_class}}


def storage_image(storage_format, access):
    return image({"Storage": {"format": storage_format, "access": access}})


def sampler():
    return {"Sampler": {"comparison": False}}


def acceleration_structure(vertex_return):
    return {"AccelerationStructure": {"vertex_return": vertex_return}}


def ray_query(vertex_return=False):
    return {"RayQuery": {"vertex_return": vertex_return}}


U32, I32, F32, BOOL = scalar(UINT), scalar(SINT), scalar(FLOAT), scalar(BOOLEAN)


def storage(*access):
    return {"Storage": {"access": list(access)}}


# Bindings.

def built_in(name):
    return {"BuiltIn": name}


def location(at, interpolation=None, sampling=None, blend_src=None, per_primitive=False):
    return {"Location": {
        "location": at, "interpolation": interpolation, "sampling": sampling, "blend_src": blend_src,
        "per_primitive": per_primitive,
    }}


def position(invariant=False):
    return {"Position": {"invariant": invariant}}


# Expressions. Types are handles here.

def literal(of, bits=0):
    return {"Literal": {"scalar": of, "bits": bits}}


def zero(ty):
    return {"ZeroValue": ty}


def compose(ty, *components):
    return {"Compose": {"ty": ty, "components": list(components)}}


def unary(*operands):
    return {"Unary": {"operands": list(operands), "detail": 0}}


def global_variable(index):
    return {"GlobalVariable": index}


def local_variable(index):
    return {"LocalVariable": index}


def load(of):
    return {"Load": {"pointer": of}}


def call_result(function):
    return {"CallResult": function}


def atomic_result(ty, comparison):
    return {"AtomicResult": {"ty": ty, "comparison": comparison}}


def operation_result(ty):
    return {"SubgroupOperationResult": {"ty": ty}}


# Statements.

def at(span, statement):
    """A statement at its place."""
    return {"span": span, "statement": statement}


def here(statement):
    return at(HERE, statement)


def emit(start, end):
    return {"Emit": {"start": start, "end": end}}


def block(*statements):
    return {"Block": list(statements)}


def if_(condition, accept=(), reject=()):
    return {"If": {"condition": condition, "accept": list(accept), "reject": list(reject)}}


def switch(selector, *cases):
    return {"Switch": {"selector": selector, "cases": list(cases)}}


def case(value, body=(), fall_through=False):
    return {"value": value, "body": list(body), "fall_through": fall_through}


def loop(body=(), continuing=(), break_if=None):
    return {"Loop": {"body": list(body), "continuing": list(continuing), "break_if": break_if}}


def return_(value=None):
    return {"Return": {"value": value}}


def image_store(to, coordinate, array_index, value):
    return {"ImageStore": {"image": to, "coordinate": coordinate, "array_index": array_index, "value": value}}


def atomic_of(fun, to, value, result):
    return {"Atomic": {"pointer": to, "fun": fun, "value": value, "result": result}}


def image_atomic(fun, to, coordinate, value):
    return {"ImageAtomic": {"image": to, "coordinate": coordinate, "array_index": None, "fun": fun, "value": value}}


def uniform_load(of, result):
    return {"WorkGroupUniformLoad": {"pointer": of, "result": result}}


def call(function, arguments=(), result=None):
    return {"Call": {"function": function, "arguments": list(arguments), "result": result}}


def proceed(query, result):
    return {"RayQuery": {"query": query, "fun": {"Proceed": {"result": result}}}}


def ballot(result, predicate=None):
    return {"SubgroupBallot": {"result": result, "predicate": predicate}}


def collective(op, collective_op, argument, result):
    return {"SubgroupCollectiveOperation": {
        "op": op, "collective_op": collective_op, "argument": argument, "result": result,
    }}


def gather(mode, argument, result):
    return {"SubgroupGather": {"mode": mode, "argument": argument, "result": result}}


def cooperative_store(target, to):
    return {"CooperativeStore": {"target": target, "source": {"pointer": to, "detail": 0}}}


def trace_ray(structure, descriptor, payload):
    return {"RayPipelineFunction": {"TraceRay": {
        "acceleration_structure": structure, "descriptor": descriptor, "payload": payload,
    }}}
