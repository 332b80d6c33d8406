"""Rows of built-ins and interpolations at each place of each stage: too many for the stored run. tools/tables judges them.

A place is a stage, in or out, and of a mesh the output of its vertices or of its primitives. What is good at a place is accepted,
but where a stage has no such result at all: that is said behind the check of the result."""

import form as f
from entry import AT_MESH, INDICES, PAYLOAD, POSITION, entry_row, triangles
from form import CAPABILITIES, F32, U32
from rules import AT_STAGE, BUILT_INS, INTERPOLATIONS, NEVER_VISIBLE, SAMPLINGS, TYPES, interpolation_fault, said
from statements import rows_of

# What has a capability of its own: at the two stages of a hit PrimitiveIndex has none.
REQUIRED = {
    "DrawIndex": "DRAW_INDEX", "ClipDistances": "CLIP_DISTANCES", "CullDistance": "CULL_DISTANCE", "ViewIndex": "MULTIVIEW",
    "PrimitiveIndex": "PRIMITIVE_INDEX", "Barycentric": "SHADER_BARYCENTRICS", "SampleIndex": "MULTISAMPLED_SHADING",
    "NumSubgroups": "SUBGROUP", "SubgroupId": "SUBGROUP", "SubgroupSize": "SUBGROUP", "SubgroupInvocationId": "SUBGROUP",
}
OF_MESH_SHADERS = [
    "CullPrimitive", "PointIndex", "LineIndices", "TriangleIndices", "MeshTaskSize", "VertexCount", "PrimitiveCount", "Vertices",
    "Primitives",
]
OWN_INDICES = ["PointIndex", "LineIndices", "TriangleIndices"]

# The places: a letter for the stage, and how; `v` and `p` are the outputs of a mesh, and `w` is in with a task payload.
PLACES = [stage + how for stage in AT_STAGE for how in "io"] + ["Mv", "Mp", "Mw"]
STAGE_NEEDS = {"T": "MESH_SHADER", "M": "MESH_SHADER"} | dict.fromkeys("RAHS", "RAY_TRACING_PIPELINE")


def kind_of(name):
    return name if isinstance(name, str) else next(iter(name))


def with_part(place, part, name=""):
    """An entry point with a part at a place, and whether it goes in. Where it isn't there itself a position goes out of a vertex,
    and the indices of a triangle out of a primitive."""
    stage, how = place
    case = AT_STAGE[stage]
    placed = f.struct([part] if name == "Position" else [part, POSITION], 32)
    if how in "iw":
        return (case.but(payload=PAYLOAD) if how == "w" else case).but(arguments=(part,)), True
    if how == "v":
        return AT_MESH.but(mesh=triangles(vertex=placed)), False
    if how == "p":
        return AT_MESH.but(mesh=triangles(primitive=f.struct([part] if name in OWN_INDICES else [part, INDICES], 32))), False
    return case.but(declared=(placed, None) if stage == "V" else part), False


def row_at(place, part, fault, name="", capabilities=CAPABILITIES):
    """The row of a part at a place, and its fault; where it has none, what is said of a result that its stage can't have."""
    case, goes_in = with_part(place, part, name)
    case = case.but(capabilities=tuple(capabilities))
    if fault is not None:
        return entry_row(case, said("Argument" if goes_in else "Result", fault))
    of_task = None if name == "MeshTaskSize" else "WrongTaskShaderEntryResult"
    return entry_row(case, {"Mo": "UnexpectedMeshShaderEntryResult", "To": of_task}.get(place))


def is_visible(places, place):
    """Whether a text has a place: what goes out of a stage goes out of both outputs of a mesh."""
    stage, how = place
    if how == "p" and places == "prim":
        return True
    hows = {"v": "o", "p": "op", "w": "i", "i": "i" if stage == "T" else "in"}.get(how, how)
    return any(stage + it in places.split() for it in hows)


def built_in_fault(name, places, place, capabilities):
    kind = kind_of(name)
    needed = None if kind == "PrimitiveIndex" and place[0] in "AH" else REQUIRED.get(kind)
    for capability in [needed, "MESH_SHADER" if kind in OF_MESH_SHADERS else None]:
        if capability is not None and capability not in capabilities:
            return {"UnsupportedCapability": [capability]}
    return None if is_visible(places, place) else {"InvalidBuiltInStage": name}


def built_ins():
    """Each built-in at each place, on a target with all capabilities, and on one with just that of the stage."""
    found = []
    for name, places, ty, _ in BUILT_INS + [(name, "", 0, 0) for name in NEVER_VISIBLE]:
        for place in PLACES:
            part = TYPES[ty], f.built_in(name)
            for capabilities in (CAPABILITIES, [STAGE_NEEDS[place[0]]] if place[0] in STAGE_NEEDS else []):
                fault = built_in_fault(name, places, place, capabilities)
                found.append(row_at(place, part, fault, kind_of(name), capabilities))
    return rows_of("everywhere/built-ins", found)


def location_fault(place, interpolation, sampling, ty):
    if interpolation == "PerVertex" and place[0] != "F":
        return {"InvalidInterpolationInStage": ["PerVertex", "Fragment"]}
    return interpolation_fault(interpolation, sampling, ty == F32, place in ("Vo", "Mo", "Fi"))


def interpolations():
    """Each interpolation with each sampling at each place: a float and an integer, or three for each vertex."""
    found = []
    for place in [stage + how for stage in AT_STAGE for how in "io"]:
        for interpolation in INTERPOLATIONS:
            for sampling in SAMPLINGS:
                for ty in (F32, U32):
                    chosen = f.array(ty, 3) if interpolation == "PerVertex" else ty
                    part = chosen, f.location(5, interpolation, sampling)
                    found.append(row_at(place, part, location_fault(place, interpolation, sampling, ty)))
    return rows_of("everywhere/interpolations", found)
