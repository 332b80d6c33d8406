"""Rows of whole shaders: the ten documents of examples/ without facts, as people write them, and each with one mistake.

The verdicts are worked out from docs/CHECKS.md and docs/TYPES.md, and never from what the program answers."""

import copy
import json
import pathlib

import verdicts
from form import COMPUTE_LIKE, STAGES, scalar, vector, BOOLEAN, FLOAT
from statements import rows_of
from verdicts import WITH_ALL, entry, in_global, ok, refused

EXAMPLES = pathlib.Path(__file__).resolve().parents[2] / "examples"

READ, WRITE, BOTH = ["READ"], ["WRITE"], ["READ", "WRITE"]

# Each shader and its verdict.
SHADERS = {
    "blur": ok([], [entry(uses=[READ, READ, READ])]),
    "particles": ok([], [entry(uses=[BOTH, BOTH, READ])]),
    "skinning": ok([STAGES], [entry(uses=[READ, READ])]),
    "mesh_triangle": ok([], [entry(COMPUTE_LIKE, [BOTH])]),
    "ray_tracing": ok([], [
        entry(uses=[READ, WRITE, BOTH, []]), entry(uses=[[], [], [], WRITE]), entry(uses=[[], [], [], WRITE]),
    ]),
    "subgroup_sum": ok([], [entry(["COMPUTE"], [READ, WRITE, BOTH])]),
    "array_length": ok([], [entry(uses=[["READ", "WRITE", "QUERY"]])]),
    "derivatives": ok([], [entry(["FRAGMENT"], [READ, READ])]),
    "dual_source": ok([], [entry(["FRAGMENT"], dual_source_blending=True)]),
    "game_of_life": ok([], [entry(uses=[BOTH])]),
}

FIRST = "/module/entry_points/0/"
INNER = FIRST + "function/"
BODY = INNER + "body/"
EXPRESSIONS = INNER + "expressions/"


def example(name):
    return json.loads((EXAMPLES / f"{name}.json").read_text(encoding="utf-8"))


def changed(document, changes):
    """A document with other values at these JSON pointers."""
    made = copy.deepcopy(document)
    for pointer, value in changes.items():
        *steps, last = [int(step) if step.isdigit() else step for step in pointer.split("/")[1:]]
        at = made
        for step in steps:
            at = at[step]
        assert at[last] != value
        at[last] = value
    return made


def in_entry(fault):
    """A fault of the first entry point."""
    return refused({"EntryPoint": 0}, fault)


def untyped(handle, rule):
    """An expression of the first entry point that has no type, since it breaks a rule of docs/TYPES.md."""
    return in_entry({"Function": {"Expression": {"handle": handle, "source": {"Lower": rule}}}})


def in_body(fault):
    """A fault of a statement of the first entry point, which has no span."""
    return refused({"EntryPoint": 0}, {"Function": fault}, [[0, 0]])


def location(at, interpolation):
    return {"Location": {
        "location": at, "interpolation": interpolation, "sampling": None, "blend_src": None, "per_primitive": False,
    }}


MISTAKES = [
    # An i32 is stored where a vec4<f32> lies.
    ("blur", {BODY + "3/Loop/body/3/Store/value": 16}, in_body({"InvalidStoreTypes": {"pointer": 1, "value": 16}})),
    # The sampler is sampled.
    ("blur", {EXPRESSIONS + "20/ImageSample/image": 8}, untyped(20, 17)),
    # The coordinate is one float.
    ("blur", {EXPRESSIONS + "20/ImageSample/coordinate": 17}, untyped(20, 19)),
    # A uniform buffer has no binding.
    ("blur", {"/module/global_variables/2/binding": None}, in_global(2, "InvalidBinding")),
    # Image and sampler have one binding.
    ("blur", {"/module/global_variables/1/binding/binding": 0}, in_entry({"BindingCollision": 1})),
    # A value of the loop's body is returned after the loop.
    ("blur", {BODY + "5/Return/value": 23}, in_body(verdicts.not_in_scope(23))),
    # The fourth component of a vec3.
    ("particles", {EXPRESSIONS + "6/AccessIndex/index": 3}, untyped(6, 5)),
    # An f32 and a u32 are added.
    ("particles", {EXPRESSIONS + "21/Binary/right": 6}, untyped(21, 11)),
    # A buffer that is only read is written.
    ("particles", {"/module/global_variables/0/space/Storage/access": ["LOAD"]}, in_body({"InvalidStorePointer": 13})),
    # An atomic operation on an f32 that is none.
    ("particles", {BODY + "7/If/accept/0/Atomic/pointer": 16}, in_body({"InvalidAtomic": {"InvalidPointer": 16}})),
    # The result of an atomic operation is given by none.
    ("particles", {BODY + "7/If/accept/0/Atomic/result": None}, in_entry({"Function": {"UnvisitedExpression": 23}})),
    # A work group of no invocation.
    ("particles", {FIRST + "workgroup_size/0": 0}, in_entry("OutOfRangeWorkgroupSize")),
    # No position.
    ("skinning", {"/module/types/6/inner/Struct/members/0/binding": location(2, "Perspective")},
     in_entry("MissingVertexOutputPosition")),
    # Two outputs at one location.
    ("skinning", {"/module/types/6/inner/Struct/members/2/binding/Location/location": 0},
     in_entry({"Result": {"BindingCollision": {"location": 0}}})),
    # An output that isn't said to be interpolated.
    ("skinning", {"/module/types/6/inner/Struct/members/1/binding/Location/interpolation": None},
     in_entry({"Result": "MissingInterpolation"})),
    # A matrix of 4 columns by a vec3.
    ("skinning", {EXPRESSIONS + "11/Binary/right": 0}, untyped(11, 11)),
    # An argument too few, and one of another type.
    ("skinning", {BODY + "0/Call/arguments": [3]},
     in_body({"InvalidCall": {"function": 0, "error": {"ArgumentCount": {"required": 2, "seen": 1}}}})),
    ("skinning", {BODY + "0/Call/arguments": [3, 3]},
     in_body({"InvalidCall": {
         "function": 0, "error": {"ArgumentType": {"index": 1, "required": 1, "seen_expression": 3}},
     }})),
    # The position alone is returned.
    ("skinning", {BODY + "2/Return/value": 14}, in_body({"InvalidReturnType": {"expression": 14, "expected_ty": 6}})),
    # The matrices overlap in their array.
    ("skinning", {"/module/types/5/inner/Array/stride": 48}, in_global(1, {"Alignment": ["Uniform", 5, 0]})),
    # The primitives say no topology.
    ("mesh_triangle", {"/module/types/5/inner/Struct/members/0/binding/BuiltIn": "PrimitiveIndex"},
     in_entry("BadMeshOutputVariableType")),
    # Another number of vertices than the array has.
    ("mesh_triangle", {FIRST + "mesh_info/max_vertices": 4}, in_entry("BadMeshOutputVariableType")),
    # The target has no mesh shaders.
    ("mesh_triangle", {"/capabilities": []}, in_entry({"UnsupportedCapability": ["MESH_SHADER"]}), *WITH_ALL),
    # A part of a payload is traced with.
    ("ray_tracing", {BODY + "2/RayPipelineFunction/TraceRay/payload": 23}, in_body("PayloadPointerNotGlobal")),
    # The descriptor is a vec3.
    ("ray_tracing", {BODY + "2/RayPipelineFunction/TraceRay/descriptor": 21}, in_body({"InvalidRayDescriptor": 21})),
    # A vec3 is written to an image.
    ("ray_tracing", {BODY + "4/ImageStore/value": 25},
     in_body({"InvalidStoreValue": {
         "actual": 25, "actual_ty": vector("Tri", FLOAT), "expected_ty": vector("Quad", FLOAT),
     }})),
    # The payload is one that came in, where none does.
    ("ray_tracing", {"/module/global_variables/2/space": "IncomingRayPayload"},
     in_entry({"IncomingRayPayloadInInvalidStage": "RayGeneration"})),
    # The fourth component of a vec3 is swizzled.
    ("ray_tracing", {EXPRESSIONS + "13/Swizzle/pattern/1": "W"}, untyped(13, 9)),
    # The target has no sums of subgroups.
    ("subgroup_sum", {"/subgroup_operations": ["BASIC"]},
     in_body({"InvalidSubgroup": {"UnsupportedOperation": ["ARITHMETIC"]}})),
    # The sum of floats is a u32.
    ("subgroup_sum", {EXPRESSIONS + "15/SubgroupOperationResult/ty": 1},
     in_body({"InvalidSubgroup": {"ResultTypeMismatch": 15}})),
    # The work group has two dimensions.
    ("subgroup_sum", {FIRST + "workgroup_size/1": 2},
     in_entry({"Argument": [2, "InvalidMultiDimensionalSubgroupBuiltIn"]})),
    # The length of a struct.
    ("array_length", {EXPRESSIONS + "4/ArrayLength": 1}, untyped(4, 25)),
    # An expression is emitted twice, and one never.
    ("array_length", {BODY + "1/If/accept/0/Emit/start": 6}, in_body({"ExpressionAlreadyInScope": 6})),
    ("array_length", {BODY + "0/Emit/end": 6}, in_body(verdicts.not_in_scope(6))),
    # A condition that is a number.
    ("array_length", {BODY + "1/If/condition": 5}, in_body({"InvalidIfType": 5})),
    # A break where there is no loop.
    ("array_length", {BODY + "1/If/accept/1": "Break"}, in_body("BreakOutsideOfLoopOrSwitch")),
    # A derivative in a compute shader.
    ("derivatives", {FIRST + "stage": "Compute", FIRST + "workgroup_size": [8, 8, 1]},
     in_entry("ForbiddenStageOperations")),
    # A choice by a number.
    ("derivatives", {EXPRESSIONS + "14/Select/condition": 3}, untyped(14, 12)),
    # The cross product of a vec2 and a vec3.
    ("derivatives", {EXPRESSIONS + "11/Math/arg": 1}, untyped(11, 15)),
    # A bool is bound to what is a u32.
    ("derivatives", {INNER + "arguments/2/binding/BuiltIn": "SampleMask"},
     in_entry({"Argument": [2, {"InvalidBuiltInType": ["SampleMask", scalar(BOOLEAN)]}]})),
    # A barrier in a fragment shader.
    ("dual_source", {BODY + "1/If/accept/0": {"ControlBarrier": ["WORK_GROUP"]}}, in_entry("ForbiddenStageOperations")),
    # One output is a source of a blend, and the other isn't.
    ("dual_source", {"/module/types/3/inner/Struct/members/1/binding/Location/blend_src": None},
     in_entry({"Result": "BlendSrcNotOnStructMember"})),
    # A clamp without an upper end.
    ("dual_source", {EXPRESSIONS + "10/Math/arg2": None}, untyped(10, 15)),
    # A splat of a vector.
    ("dual_source", {EXPRESSIONS + "11/Splat/value": 0}, untyped(11, 8)),
    # A Switch without a default, with one value twice, with a signed value, and whose last case goes on.
    ("game_of_life", {BODY + "7/Switch/cases/2/value": {"U32": 4}}, in_body("MissingDefaultCase")),
    ("game_of_life", {BODY + "7/Switch/cases/1/value": {"U32": 2}}, in_body({"ConflictingSwitchCase": {"U32": 2}})),
    ("game_of_life", {BODY + "7/Switch/cases/1/value": {"I32": 3}}, in_body("ConflictingCaseType")),
    ("game_of_life", {BODY + "7/Switch/cases/2/fall_through": True}, in_body("LastCaseFallTrough")),
    # A value that a Continue may skip is stored in the continuing part.
    ("game_of_life", {BODY + "3/Loop/body/1/Loop/continuing/1/Store/value": 28}, in_body(verdicts.not_in_scope(28))),
    # A Continue where there is no loop.
    ("game_of_life", {BODY + "7/Switch/cases/0/body/0": "Continue"}, in_body("ContinueOutsideOfLoop")),
    # A Return in a continuing part.
    ("game_of_life", {BODY + "3/Loop/continuing/1": {"Return": {"value": None}}}, in_body("InvalidReturnSpot")),
    # A bool is an index.
    ("game_of_life", {EXPRESSIONS + "30/Access/index": 22}, untyped(30, 4)),
    # A load of what is no pointer.
    ("game_of_life", {EXPRESSIONS + "29/Load/pointer": 0}, untyped(29, 6)),
]


def shaders():
    return rows_of("shaders", [(example(name), verdict) for name, verdict in SHADERS.items()])


def mistakes():
    return rows_of("mistakes", [
        (changed(example(name), changes), verdict, *rest) for name, changes, verdict, *rest in MISTAKES
    ])
