"""Rows of computed types of operators, conversions, functions and images: documents without facts, whose verdicts are worked out
from docs/TYPES.md, one for each line of its rules that is met or missed.

As in typed.py a function returns its last expression, and is accepted if that is of the type that it declares; one that breaks a
rule is refused as `Lower` of the rule's number. Here operands and `detail` are written as numbers, not by name."""

import form as f
import verdicts
from form import BOOL, F32, FLOAT, I32, SINT, STAGES, U32, UINT
from module import Module, function
from statements import rows_of
from typed import document
from verdicts import in_function


def sampled(arrayed=False, multi=False):
    made = f.image({"Sampled": {"kind": "Float", "multi": multi}})
    made["Image"]["arrayed"] = arrayed
    return made


# Types, of each of which an expression stands in front: a zero value, or of a resource a global.
VALUES = {
    "f32": F32, "u32": U32, "i32": I32, "bool": BOOL, "vec2f": f.vector("Bi", FLOAT), "vec3f": f.vector("Tri", FLOAT),
    "vec4f": f.vector("Quad", FLOAT), "mat2x3": f.matrix("Bi", "Tri", FLOAT), "vec3b": f.vector("Tri", f.BOOLEAN),
    "vec3u": f.vector("Tri", UINT), "mat3x3": f.matrix("Tri", "Tri", FLOAT), "vec2i": f.vector("Bi", SINT),
    "vec2u": f.vector("Bi", UINT), "vec4u": f.vector("Quad", UINT),
}
RESOURCES = {
    "image": sampled(), "depth": f.image({"Depth": {"multi": False}}), "multi": sampled(multi=True),
    "layers": sampled(arrayed=True), "storage": f.storage_image("R32Uint", ["LOAD"]), "sampler": f.sampler(),
}
NAMES = [*VALUES, *RESOURCES]


def shown(kind, operands, detail, outcome, stages=STAGES):
    """A function of one expression more, by its kind, the names of its operands, and its number. Its outcome is the name of its
    type, or the number of the rule that it breaks."""
    module = Module(*VALUES.values())
    for binding, ty in enumerate(RESOURCES.values()):
        module.global_("Handle", ty, binding)
    before = [f.zero(module.type(ty)) for ty in VALUES.values()] + [f.global_variable(at) for at in range(len(RESOURCES))]
    last = {kind: {"operands": [NAMES.index(name) for name in operands.split()], "detail": detail}}
    at = len(before)
    body, result = [f.emit(at, at + 1), f.return_(at)], None
    if isinstance(outcome, str):
        result = module.type(VALUES[outcome]), None
    module.function(function([*before, last], body, result=result))
    if isinstance(outcome, int):
        return document(module), in_function(0, {"Expression": {"handle": at, "source": {"Lower": outcome}}})
    return document(module), verdicts.ok([stages])


def operators():
    binary = lambda operands, detail, outcome: shown("Binary", operands, detail, outcome)
    return [binary(*it) for it in [
        ("f32 f32", 0, "f32"), ("f32 u32", 0, 11), ("vec3f f32", 1, "vec3f"), ("f32 vec3f", 0, "vec3f"), ("vec3f vec2f", 0, 11),
        ("mat2x3 mat2x3", 0, "mat2x3"), ("mat2x3 mat2x3", 3, 11), ("bool bool", 0, 11), ("mat2x3 vec2f", 2, "vec3f"),
        ("mat2x3 vec3f", 2, 11), ("vec3f mat2x3", 2, "vec2f"), ("f32 mat2x3", 2, "mat2x3"), ("mat3x3 mat2x3", 2, "mat2x3"),
        ("mat2x3 mat3x3", 2, 11), ("u32 u32", 18, 7),
        ("f32 f32", 7, "bool"), ("vec3f vec3f", 10, "vec3b"), ("bool bool", 5, "bool"), ("bool bool", 7, 11),
        ("mat2x3 mat2x3", 5, 11), ("vec3b vec3b", 11, "vec3b"), ("bool bool", 12, 11), ("u32 u32", 12, "u32"),
        ("f32 f32", 13, 11), ("bool bool", 14, "bool"), ("vec3b vec3b", 15, 11), ("i32 u32", 16, "i32"), ("u32 i32", 17, 11),
        ("vec3u u32", 16, 11),
    ]]


def others():
    return [shown(*it) for it in [
        ("Splat", "f32", 1, "vec3f"), ("Splat", "vec2f", 1, 8), ("Swizzle", "vec4f", 2 * 256 + 0xE4, "vec4f"),
        ("Swizzle", "vec2f", 1, "vec2f"), ("Swizzle", "vec2f", 2, 9), ("Unary", "mat2x3", 0, "mat2x3"), ("Unary", "u32", 0, 10),
        ("Unary", "vec3b", 1, "vec3b"), ("Unary", "f32", 2, 10), ("Select", "bool vec3f vec3f", 0, "vec3f"),
        ("Select", "vec3b vec3f vec3f", 0, "vec3f"), ("Select", "vec3b vec2f vec2f", 0, 12),
        ("Select", "bool vec3f vec2f", 0, 12), ("Derivative", "vec3f", 8, "vec3f", ["FRAGMENT"]), ("Derivative", "u32", 8, 13),
        ("Relational", "vec3b", 0, "bool"), ("Relational", "f32", 1, 14), ("Relational", "vec3f", 2, "vec3b"),
        ("Relational", "u32", 3, 14), ("As", "f32", 256 + 4, "u32"), ("As", "f32", 256 + 3, 16),
        ("As", "mat2x3", 2 * 256 + 4, "mat2x3"), ("As", "mat2x3", 256 + 4, 16), ("As", "vec3f", 256, "vec3u"),
        ("As", "bool", 256, 16), ("As", "bool", 2 * 256 + 4, "f32"), ("As", "sampler", 2 * 256 + 4, 16),
        ("Math", "i32", 0, "i32"), ("Math", "bool", 0, 15), ("Math", "f32 f32", 2, "f32"), ("Math", "f32", 2, 15),
        ("Math", "vec3f", 5, "vec3f"), ("Math", "u32", 5, 15), ("Math", "vec3f vec3f", 33, "f32"), ("Math", "f32 f32", 33, 15),
        ("Math", "vec3f vec3f", 36, "vec3f"), ("Math", "vec4f vec4f", 36, 15), ("Math", "vec3f", 38, "f32"),
        ("Math", "vec3f vec3f f32", 42, "vec3f"), ("Math", "vec3f vec3f vec2f", 42, 15), ("Math", "mat3x3", 51, "f32"),
        ("Math", "mat2x3", 51, 15),
    ]]


# What is sampled at level 0 Auto or 15 Bias runs in a fragment shader alone.

def images():
    automatic = ["FRAGMENT"]
    return [shown(*it) for it in [
        ("ImageSample", "image sampler vec2f", 0, "vec4f", automatic), ("ImageSample", "image sampler f32", 0, 19),
        ("ImageSample", "f32 sampler vec2f", 0, 17), ("ImageSample", "image image vec2f", 0, 18),
        ("ImageSample", "multi sampler vec2f", 0, 17), ("ImageSample", "depth sampler vec2f f32", 100, 18),
        ("ImageSample", "depth sampler vec2f", 0, "f32", automatic), ("ImageSample", "depth sampler vec2f", 6, "vec4f"),
        ("ImageSample", "depth sampler vec2f", 1, 22), ("ImageSample", "image sampler vec2f f32", 10, "vec4f"),
        ("ImageSample", "image sampler vec2f i32", 10, 22), ("ImageSample", "image sampler vec2f", 10, 7),
        ("ImageSample", "layers sampler vec2f i32", 25, "vec4f", automatic), ("ImageSample", "layers sampler vec2f", 0, 20),
        ("ImageSample", "image sampler vec2f vec2f", 50, 21),
        ("ImageSample", "image sampler vec2f vec2i", 50, "vec4f", automatic), ("ImageLoad", "image vec2i i32", 4, "vec4f"),
        ("ImageLoad", "image vec2i", 0, 22), ("ImageLoad", "image vec2f i32", 4, 19),
        ("ImageLoad", "multi vec2i i32", 2, "vec4f"), ("ImageLoad", "multi vec2i", 0, 24),
        ("ImageLoad", "storage vec2u", 0, "vec4u"), ("ImageLoad", "depth vec2i i32", 4, "f32"),
        ("ImageQuery", "image", 0, "vec2u"), ("ImageQuery", "image i32", 0, "vec2u"), ("ImageQuery", "multi i32", 0, 22),
        ("ImageQuery", "image", 1, "u32"), ("ImageQuery", "multi", 1, 17), ("ImageQuery", "layers", 2, "u32"),
        ("ImageQuery", "multi", 3, "u32"),
    ]]


def operations():
    return rows_of("typed/operators", operators() + others())


def image_operations():
    return rows_of("typed/images", images())
