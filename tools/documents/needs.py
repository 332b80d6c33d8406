"""Which capability each check asks for, and so what becomes of an accepted document when one capability is taken away: the
table of tools/settings, worked out from the lists of docs/CHECKS.md and never from what the program answers.

Where a module is accepted with all capabilities, its verdict without one is the fault of the first check, in the order of the
judgement, that asks for it. So only the checks that ask for one are walked over here, in that order.
"""

import verdicts
from form import CAPABILITIES
from plain import tag_of

BOTH_OF_BARRIERS = ["SUBGROUP", "SUBGROUP_BARRIER"]
SUBGROUP_STATEMENTS = ["SubgroupBallot", "SubgroupCollectiveOperation", "SubgroupGather"]

SPACES = {
    "TaskPayload": "MESH_SHADER", "Immediate": "IMMEDIATES", "RayPayload": "RAY_TRACING_PIPELINE",
    "IncomingRayPayload": "RAY_TRACING_PIPELINE",
}
NORM_FORMATS = ["R16Unorm", "R16Snorm", "Rg16Unorm", "Rg16Snorm", "Rgba16Unorm", "Rgba16Snorm"]
DECORATIONS = {
    "COHERENT": ("MEMORY_DECORATION_COHERENT", "CoherentNotSupported"),
    "VOLATILE": ("MEMORY_DECORATION_VOLATILE", "VolatileNotSupported"),
}
STAGES = {
    "Task": "MESH_SHADER", "Mesh": "MESH_SHADER", "RayGeneration": "RAY_TRACING_PIPELINE", "AnyHit": "RAY_TRACING_PIPELINE",
    "ClosestHit": "RAY_TRACING_PIPELINE", "Miss": "RAY_TRACING_PIPELINE",
}
BUILT_INS = {
    "DrawIndex": "DRAW_INDEX", "ClipDistances": "CLIP_DISTANCES", "CullDistance": "CULL_DISTANCE", "ViewIndex": "MULTIVIEW",
    "PrimitiveIndex": "PRIMITIVE_INDEX", "Barycentric": "SHADER_BARYCENTRICS", "SampleIndex": "MULTISAMPLED_SHADING",
    "NumSubgroups": "SUBGROUP", "SubgroupId": "SUBGROUP", "SubgroupSize": "SUBGROUP", "SubgroupInvocationId": "SUBGROUP",
    "CullPrimitive": "MESH_SHADER", "PointIndex": "MESH_SHADER", "LineIndices": "MESH_SHADER",
    "TriangleIndices": "MESH_SHADER", "MeshTaskSize": "MESH_SHADER",
}


def unsupported(capability):
    return {"UnsupportedCapability": [capability]}


def missing(capabilities):
    return {"MissingCapability": capabilities}


# Globals.

def of_array(space, base):
    """What a binding array in a space needs, by what it has."""
    if space == "Uniform":
        return "BUFFER_BINDING_ARRAY"
    if space != "Handle":
        return "STORAGE_BUFFER_BINDING_ARRAY"
    kind, held = tag_of(base)
    if kind == "Image" and "Storage" in held["class"]:
        return "STORAGE_TEXTURE_BINDING_ARRAY"
    if kind == "AccelerationStructure":
        return "ACCELERATION_STRUCTURE_BINDING_ARRAY"
    return "TEXTURE_AND_SAMPLER_BINDING_ARRAY" if kind in ("Image", "Sampler") else None


def global_needs(module, var):
    """What a global needs, in order, each with the fault where it is missing."""
    inner = module["types"][var["ty"]]["inner"]
    if "BindingArray" in inner:
        inner = module["types"][inner["BindingArray"]["base"]]["inner"]
        needed = of_array(var["space"], inner)
        yield needed, unsupported(needed)
    needed = SPACES.get(tag_of(var["space"])[0])
    yield needed, unsupported(needed)
    image = inner.get("Image", {}).get("class", {})
    if "Storage" in image and image["Storage"]["format"] in NORM_FORMATS:
        yield "STORAGE_TEXTURE_16BIT_NORM_FORMATS", unsupported("STORAGE_TEXTURE_16BIT_NORM_FORMATS")
    for decoration in ("COHERENT", "VOLATILE"):
        if decoration in var["memory_decorations"]:
            yield DECORATIONS[decoration]


# Statements.

def parts_of(statement):
    """The lists of statements that a statement holds, in the order in which they are visited."""
    kind, held = tag_of(statement)
    if kind == "Block":
        return [held]
    if kind == "If":
        return [held["accept"], held["reject"]]
    if kind == "Loop":
        return [held["body"], held["continuing"]]
    return [case["body"] for case in held["cases"]] if kind == "Switch" else []


def visited(body):
    """The statements of a body with their places, in visit order."""
    for item in body:
        is_placed = isinstance(item, dict) and "span" in item
        statement, span = (item["statement"], item["span"]) if is_placed else (item, [0, 0])
        yield statement, span
        for part in parts_of(statement):
            yield from visited(part)


def pointer_of(module, function, fact, handle):
    """What an expression that is a pointer points to, and its space: by the facts, or, without any, of a global."""
    if fact is not None:
        return fact["info"]["types"][handle]["Value"]["Pointer"]
    var = module["global_variables"][function["expressions"][handle]["GlobalVariable"]]
    return {"base": var["ty"], "space": var["space"]}


def atomic_needs(module, function, fact, held):
    """What an atomic operation needs, by the scalar of the atomic that it is on. Where all operations on wide integers are
    missing, some need the weaker capability alone, which the target then has; and where the weaker one is missing nothing asks
    for it."""
    pointer = pointer_of(module, function, fact, held["pointer"])
    of = module["types"][pointer["base"]]["inner"]["Atomic"]
    is_weak = held["fun"] in ("Min", "Max") and "Storage" in pointer["space"] and held["result"] is None
    if of["width"] == 8 and of["kind"] in ("Sint", "Uint") and not is_weak:
        return "SHADER_INT64_ATOMIC_ALL_OPS"
    return "SHADER_FLOAT32_ATOMIC" if of == {"kind": "Float", "width": 4} else None


def image_atomic_needs(module, function, held):
    """What an atomic operation on the image of a global needs, by the format."""
    var = module["global_variables"][function["expressions"][held["image"]]["GlobalVariable"]]
    storage_format = module["types"][var["ty"]]["inner"]["Image"]["class"]["Storage"]["format"]
    return "TEXTURE_INT64_ATOMIC" if storage_format == "R64Uint" else "TEXTURE_ATOMIC"


def statement_needs(module, function, fact, statement):
    kind, held = tag_of(statement)
    if kind in ("ControlBarrier", "MemoryBarrier") and "SUB_GROUP" in held:
        for needed in BOTH_OF_BARRIERS:
            yield needed, missing(BOTH_OF_BARRIERS)
    if kind in SUBGROUP_STATEMENTS:
        yield "SUBGROUP", missing(["SUBGROUP"])
    if kind == "Atomic":
        needed = atomic_needs(module, function, fact, held)
        yield needed, {"InvalidAtomic": missing([needed])}
    if kind == "ImageAtomic":
        needed = image_atomic_needs(module, function, held)
        yield needed, missing([needed])


def function_needs(document, function, fact):
    """What the statements of a function need, each with its fault and its place."""
    if "BLOCKS" in document["flags"]:
        for statement, span in visited(function["body"]):
            for needed, fault in statement_needs(document["module"], function, fact, statement):
                yield needed, fault, [span]


# Entry points.

def part_needs(stage, binding):
    """What a part that is bound needs at a stage."""
    kind, held = tag_of(binding)
    if kind == "BuiltIn":
        name = tag_of(held)[0]
        if not (name == "PrimitiveIndex" and stage in ("AnyHit", "ClosestHit")):
            yield BUILT_INS.get(name)
        return
    if held["per_primitive"]:
        yield "MESH_SHADER"
    if held["interpolation"] == "PerVertex":
        yield "PER_VERTEX"
    if held["sampling"] == "Sample":
        yield "MULTISAMPLED_SHADING"


def item_needs(document, stage, ty, binding):
    """What an item needs: its binding, or those of its members."""
    bindings = [binding]
    inner = document["module"]["types"][ty]["inner"]
    if binding is None and "Struct" in inner:
        bindings = [member["binding"] for member in inner["Struct"]["members"]]
    for found in bindings:
        if found is not None:
            for needed in part_needs(stage, found):
                yield needed, unsupported(needed)


def mesh_needs(document, stage, said):
    if said["topology"] == "Points":
        yield "MESH_SHADER_POINT_TOPOLOGY", unsupported("MESH_SHADER_POINT_TOPOLOGY")
    for output in ("vertex_output_type", "primitive_output_type"):
        for needed, fault in item_needs(document, stage, said[output], None):
            yield needed, {"Result": fault}


def entry_needs(document, entry, fact):
    """What an entry point needs, in the order of its steps, each with its fault and the places of this."""
    stage, function = entry["stage"], entry["function"]
    needed = STAGES.get(stage)
    yield needed, unsupported(needed), []
    if entry["early_depth_test"] is not None:
        yield "EARLY_DEPTH_TEST", {"Result": unsupported("EARLY_DEPTH_TEST")}, []
    for needed, fault, spans in function_needs(document, function, fact):
        yield needed, {"Function": fault}, spans
    for index, argument in enumerate(function["arguments"]):
        for needed, fault in item_needs(document, stage, argument["ty"], argument["binding"]):
            yield needed, {"Argument": [index, fault]}, []
    if function["result"] is not None:
        for needed, fault in item_needs(document, stage, function["result"]["ty"], function["result"]["binding"]):
            yield needed, {"Result": fault}, []
    if entry["mesh_info"] is not None:
        for needed, fault in mesh_needs(document, stage, entry["mesh_info"]):
            yield needed, fault, []


def needs_of(document):
    """All that an accepted document needs, in the order of the judgement, each with the verdict where it is missing."""
    module = document["module"]
    facts = document["facts"] or {name: [None] * len(module[name]) for name in ("functions", "entry_points")}
    for index, var in enumerate(module["global_variables"]):
        for needed, fault in global_needs(module, var):
            yield needed, verdicts.in_global(index, fault)
    for index, function in enumerate(module["functions"]):
        for needed, fault, spans in function_needs(document, function, facts["functions"][index]):
            yield needed, verdicts.in_function(index, fault, *spans)
    for index, entry in enumerate(module["entry_points"]):
        for needed, fault, spans in entry_needs(document, entry, facts["entry_points"][index]):
            yield needed, verdicts.refused({"EntryPoint": index}, fault, spans)


def changes_of(document):
    """The verdict of an accepted document without each capability that it needs."""
    found = {}
    for needed, verdict in needs_of(document):
        if needed is not None:
            found.setdefault(needed, verdict)
    return {capability: found[capability] for capability in CAPABILITIES if capability in found}
