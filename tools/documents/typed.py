"""Rows of computed types of expressions: documents without facts, whose verdicts are worked out from docs/TYPES.md.

A function declares the type that its last expression is said to have as its result, and returns it: so it is accepted if that is
the type. An expression that breaks a rule is refused as `Lower` of the rule's number."""

import form as f
import verdicts
from form import BOOL, F32, FLOAT, I32, SINT, STAGES, U32, UINT
from module import Module, function
from statements import rows_of
from verdicts import in_function

VALUES = {
    "f32": F32, "u32": U32, "i32": I32, "bool": BOOL, "f64": f.scalar(f.DOUBLE),
    "vec2f": f.vector("Bi", FLOAT), "vec3f": f.vector("Tri", FLOAT), "vec4f": f.vector("Quad", FLOAT),
    "vec2u": f.vector("Bi", UINT), "vec3u": f.vector("Tri", UINT), "vec4u": f.vector("Quad", UINT),
    "vec3i": f.vector("Tri", SINT), "vec4i": f.vector("Quad", SINT),
    "mat2x3": f.matrix("Bi", "Tri", FLOAT), "mat3x2": f.matrix("Tri", "Bi", FLOAT), "mat3x3": f.matrix("Tri", "Tri", FLOAT),
    "four": f.array(U32, 4), "pair": {"Struct": {"members": [
        {"name": None, "ty": U32, "binding": None, "offset": 0},
        {"name": None, "ty": f.vector("Tri", FLOAT), "binding": None, "offset": 16},
    ], "span": 32}},
}
NAMES = list(VALUES)

# What globals hold, each in Storage that is loaded and stored, at the binding with its number; the last is a uniform.
HELD = {
    "numbers": f.array(U32, 0), "counter": f.atomic(UINT), "fours": f.array(U32, 4), "matrix": VALUES["mat2x3"],
    "pairs": VALUES["pair"], "vector": VALUES["vec3f"], "constant": VALUES["vec4f"],
}
GLOBALS = list(HELD)


def document(module, **settings):
    """The document of a module without facts."""
    made = {
        "flags": f.FLAGS, "capabilities": f.CAPABILITIES, "subgroup_stages": f.STAGES, "subgroup_operations": f.OPERATIONS,
    }
    return {**made, **settings, "module": module.parts, "facts": None}


def value(name):
    """The zero value of a type, by its place among the expressions."""
    return NAMES.index(name)


def of(name):
    """A global, by its place among the expressions."""
    return len(NAMES) + GLOBALS.index(name)


# The place of the first expression behind these.
NEXT = len(NAMES) + len(GLOBALS)


def module_of_values():
    module = Module(*VALUES.values())
    for binding, (name, held) in enumerate(HELD.items()):
        module.global_("Uniform" if name == "constant" else f.storage("LOAD", "STORE"), held, binding)
    return module


def shown(made, outcome, body=None, stages=STAGES):
    """A row of a function with these expressions behind the values and the globals. Its outcome is the type of the last of them,
    the number of the rule that it breaks, or a fault of the body."""
    module = module_of_values()
    before = [f.zero(module.type(it)) for it in VALUES.values()] + [f.global_variable(at) for at in range(len(GLOBALS))]
    last = NEXT + len(made) - 1
    result = None
    if body is None and not isinstance(outcome, int):
        result = module.type(VALUES[outcome] if isinstance(outcome, str) else outcome)
    statements = [f.emit(NEXT, last + 1)] + ([f.return_(last)] if body is None else body)
    module.function(function([*before, *made], statements, result=None if result is None else (result, None)))
    if isinstance(outcome, int):
        verdict = in_function(0, {"Expression": {"handle": last, "source": {"Lower": outcome}}})
    elif body is None:
        verdict = verdicts.ok([stages])
    else:
        verdict = in_function(0, outcome, f.NOWHERE)
    return document(module), verdict


def access(base, index):
    return {"Access": {"base": base, "index": index}}


def member(base, index):
    return {"AccessIndex": {"base": base, "index": index}}


# Accesses and loads.

def accesses():
    u32 = value("u32")
    last_loaded = lambda made, outcome: shown([*made, f.load(NEXT + len(made) - 1)], outcome)
    return rows_of("typed/access", [
        shown([access(value("four"), u32)], "u32"),
        shown([access(value("four"), value("i32"))], "u32"),
        shown([access(value("four"), value("f32"))], 4),
        shown([access(value("four"), value("vec3u"))], 4),
        shown([access(value("mat2x3"), u32)], "vec3f"),
        shown([access(value("vec3f"), u32)], "f32"),
        shown([access(value("pair"), u32)], 3),
        shown([access(u32, u32)], 3),
        shown([member(value("four"), 3)], "u32"),
        shown([member(value("four"), 4)], 5),
        shown([member(value("mat2x3"), 1)], "vec3f"),
        shown([member(value("mat2x3"), 2)], 5),
        shown([member(value("vec3f"), 2)], "f32"),
        shown([member(value("vec3f"), 3)], 5),
        shown([member(value("pair"), 1)], "vec3f"),
        shown([member(value("pair"), 2)], 5),
        shown([member(u32, 0)], 3),
        last_loaded([access(of("numbers"), u32)], "u32"),
        last_loaded([member(of("numbers"), 4294967295)], "u32"),
        last_loaded([member(of("fours"), 3)], "u32"),
        shown([member(of("fours"), 4)], 5),
        last_loaded([access(of("matrix"), u32)], "vec3f"),
        last_loaded([access(of("matrix"), u32), access(NEXT, u32)], "f32"),
        last_loaded([member(of("matrix"), 1), member(NEXT, 2)], "f32"),
        shown([member(of("matrix"), 2)], 5),
        shown([member(of("matrix"), 1), member(NEXT, 3)], 5),
        last_loaded([member(of("vector"), 0)], "f32"),
        last_loaded([member(of("pairs"), 1)], "vec3f"),
        shown([member(of("pairs"), 2)], 5),
        shown([access(of("pairs"), u32)], 3),
        shown([access(of("matrix"), u32), access(NEXT, u32), access(NEXT + 1, u32)], 3),
        # The space is that of the pointer: a uniform takes no stores.
        shown([access(of("constant"), u32)], {"InvalidStorePointer": NEXT}, [
            {"Store": {"pointer": NEXT, "value": value("f32")}},
        ]),
        shown([f.load(of("counter"))], "u32"),
        shown([f.load(of("fours"))], "four"),
        shown([f.load(of("pairs"))], "pair"),
        shown([f.load(of("numbers"))], 6),
        shown([f.load(u32)], 6),
        shown([{"ArrayLength": of("numbers")}], "u32"),
        shown([{"ArrayLength": of("fours")}], 25),
        shown([{"ArrayLength": value("four")}], 25),
        shown([{"RayQueryGetIntersection": {"query": u32, "committed": True}}], 26),
        shown([{"RayQueryVertexPositions": {"query": u32, "committed": False}}], 26),
    ])


# Functions of WGSL: each with arguments that it takes, the type of the result, and arguments that it doesn't take.

ONE_FLOAT = [
    "Saturate", "Cos", "Cosh", "Sin", "Sinh", "Tan", "Tanh", "Acos", "Asin", "Atan", "Asinh", "Acosh", "Atanh", "Radians",
    "Degrees", "Ceil", "Floor", "Round", "Fract", "Trunc", "Exp", "Exp2", "Log", "Log2", "Sqrt", "InverseSqrt",
]
BITS = ["CountTrailingZeros", "CountLeadingZeros", "CountOneBits", "ReverseBits", "FirstTrailingBit", "FirstLeadingBit"]
FUNCTIONS = [
    ("Abs", "vec3i", "vec3i", "bool"), ("Min", "i32 i32", "i32", "i32 u32"), ("Max", "vec3f vec3f", "vec3f", "vec3f f32"),
    ("Clamp", "u32 u32 u32", "u32", "u32 u32"),
    *[(name, "vec3f", "vec3f", "i32") for name in ONE_FLOAT],
    *[(name, "f32 f32", "f32", "f32 vec3f") for name in ("Atan2", "Pow", "Step")],
    *[(name, "vec3f vec3f vec3f", "vec3f", "vec3f vec3f f32") for name in ("Fma", "SmoothStep")],
    ("Modf", None, None, "f32"), ("Frexp", None, None, "f32"), ("Ldexp", "vec3f vec3i", "vec3f", "vec3f vec3u"),
    ("Dot", "vec3i vec3i", "i32", "f32 f32"), ("Dot4I8Packed", "u32 u32", "i32", "i32 i32"),
    ("Dot4U8Packed", "u32 u32", "u32", "u32"), ("Cross", "vec3f vec3f", "vec3f", "vec4f vec4f"),
    ("Distance", "f32 f32", "f32", "vec3f f32"), ("Length", "vec3f", "f32", "i32"), ("Normalize", "vec3f", "vec3f", "f32"),
    ("FaceForward", "vec3f vec3f vec3f", "vec3f", "f32 f32 f32"), ("Reflect", "vec3f vec3f", "vec3f", "vec3f"),
    ("Refract", "vec3f vec3f f32", "vec3f", "vec3f vec3f vec3f"), ("Sign", "vec3i", "vec3i", "u32"),
    ("Mix", "vec3f vec3f f32", "vec3f", "vec3f vec3f vec2f"), ("Mix", "vec3f vec3f vec3f", "vec3f", "i32 i32 i32"),
    ("Transpose", "mat2x3", "mat3x2", "vec3f"), ("Determinant", "mat3x3", "f32", "mat2x3"),
    ("QuantizeToF16", "vec3f", "vec3f", "f64"),
    *[(name, "vec3u", "vec3u", "f32") for name in BITS],
    ("ExtractBits", "vec3i u32 u32", "vec3i", "vec3i i32 u32"), ("InsertBits", "u32 u32 u32 u32", "u32", "u32 i32 u32 u32"),
    *[(name, "vec4f", "u32", "vec2f") for name in ("Pack4x8snorm", "Pack4x8unorm")],
    *[(name, "vec2f", "u32", "vec4f") for name in ("Pack2x16snorm", "Pack2x16unorm", "Pack2x16float")],
    *[(name, "vec4i", "u32", "vec4u") for name in ("Pack4xI8", "Pack4xI8Clamp")],
    *[(name, "vec4u", "u32", "vec4i") for name in ("Pack4xU8", "Pack4xU8Clamp")],
    *[(name, "u32", "vec4f", "i32") for name in ("Unpack4x8snorm", "Unpack4x8unorm")],
    *[(name, "u32", "vec2f", "vec2u") for name in ("Unpack2x16snorm", "Unpack2x16unorm", "Unpack2x16float")],
    ("Unpack4xI8", "u32", "vec4i", "f32"), ("Unpack4xU8", "u32", "vec4u", "u32 u32"),
]


def math(fun, arguments):
    given = [value(name) for name in arguments.split()]
    first, *others = given + [None] * (4 - len(given))
    return {"Math": {"fun": fun, "arg": first, **{f"arg{at}": it for at, it in enumerate(others, 1)}}}


def functions():
    rows = []
    for fun, taken, result, refused in FUNCTIONS:
        if taken is not None:
            rows.append(shown([math(fun, taken)], result))
        rows.append(shown([math(fun, refused)], 15))
    return rows_of("typed/math", rows)


# Cooperative matrices. The numbers of a type: 6 for sixteen columns, 3 for sixteen rows, and the role.

def cooperative(detail, of_scalar=FLOAT):
    return {"CooperativeMatrix": {"scalar": of_scalar, "detail": detail}}


def cooperative_load(pointer, columns="Eight", rows="Sixteen", role="B"):
    return {"CooperativeLoad": {
        "columns": columns, "rows": rows, "role": role, "data": {"pointer": pointer, "stride": value("u32"), "row_major": True},
    }}


def cooperatives():
    component = member(of("vector"), 0)
    add = lambda a, b, c: {"CooperativeMultiplyAdd": {"a": a, "b": b, "c": c}}
    in_compute = lambda made, outcome: shown(made, outcome, stages=["COMPUTE"])
    return rows_of("typed/cooperative", [
        in_compute([component, cooperative_load(NEXT)], cooperative(4)),
        in_compute([component, cooperative_load(NEXT, "Sixteen", "Eight", "C")], cooperative(8)),
        in_compute([component, cooperative_load(NEXT, "Sixteen", "Sixteen", "A")], cooperative(9)),
        in_compute([
            component, cooperative_load(NEXT, "Eight", "Eight", "A"), cooperative_load(NEXT), add(NEXT + 1, NEXT + 1, NEXT + 2),
        ], cooperative(4)),
        shown([cooperative_load(of("vector"))], 27),
        shown([cooperative_load(value("f32"))], 27),
        shown([component, cooperative_load(NEXT), add(NEXT + 1, NEXT + 1, value("f32"))], 27),
        shown([component, cooperative_load(NEXT), add(value("f32"), NEXT + 1, NEXT + 1)], 27),
    ])
