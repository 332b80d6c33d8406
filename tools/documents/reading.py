"""Rows of what can be read as a document and what can't, which tools/tables judges: each form by good and bad values (`values`
beside this file), texts that are no document, pointers to what can't be read, and named forms by what they stand for."""

import json
import pathlib
from collections import namedtuple

import form as f
from forms import missing, one_of, too_many, unreadable
from module import Module, document, function

# What a text is called, the text, and what is due: the verdict; without one, that it can be read, or, where a pointer is given,
# that it can't be there or in what is there. ("exactly" stands for a verdict with this pointer.)
Text = namedtuple("Text", "name text verdict pointer")
HOLE = "@"


def base():
    """A document with something in each list that a value may stand in, which shares nothing with others."""
    module = Module(f.U32)
    module.global_("Private", 0)
    module.function(function([f.literal(f.UINT, 7)]))
    module.entry_point("Fragment", function())
    return json.loads(json.dumps(document(module)))


def placed(pointer, form, value):
    """The document with a value at a place, in a form, as a text; and the pointer to the value."""
    told, steps = base(), pointer.strip("/").split("/") if pointer != "/" else []
    form = json.loads(form.replace(HOLE, json.dumps(HOLE)))
    if steps:
        *before, last = [int(step) if step.isdigit() else step for step in steps]
        holder = told
        for step in before:
            holder = holder[step]
        holder[last] = form
    else:
        told = form
    way = "".join(f"/{step}" for step in steps) + way_to_hole(form)
    return json.dumps(told, separators=(",", ":")).replace(json.dumps(HOLE), value), way


def way_to_hole(form):
    """The pointer to the hole of a form."""
    if form == HOLE:
        return ""
    held = form.items() if isinstance(form, dict) else enumerate(form) if isinstance(form, list) else ()
    for step, it in held:
        way = way_to_hole(it)
        if way is not None:
            return f"/{step}{way}"
    return None


def values():
    """The rows of `values`."""
    named, rows, place = {}, [], None
    for line in (pathlib.Path(__file__).parent / "values").read_text(encoding="utf-8").splitlines():
        for name, text in reversed(named.items()):
            line = line.replace(name, text) if not line.startswith(f"{name} = ") else line
        mark, _, rest = line.partition(" ")
        if mark.startswith("$"):
            named[mark] = rest.removeprefix("= ")
        elif mark == "#":
            place = rest.split(" ", 1)
        elif mark in ("+", "-"):
            text, way = placed(*place, rest)
            rows.append(Text(f"{' '.join(place)} of {rest}", text.encode(), None, way if mark == "-" else None))
    return rows


# Bodies of the first function: what is read, and where reading stops, with what is expected there.

BODY = "/module/functions/0/body"
STATEMENTS_OF_RAYS = one_of(["ConfirmIntersection", "Terminate"], ["Initialize", "Proceed", "GenerateIntersection"])
COLLECTIVES = one_of(["Reduce", "InclusiveScan", "ExclusiveScan"])
NO_JSON = unreadable("", "JSON in UTF-8, whose brackets nest at most 127 deep")
NO_OBJECT = unreadable("", 'an object with the fields ' + ", ".join(f'"{name}"' for name in (
    "flags", "capabilities", "subgroup_stages", "subgroup_operations", "module", "facts",
)))


def collective(operation):
    return f'[{{"SubgroupCollectiveOperation":{{"op":"Add","collective_op":{operation},"argument":0,"result":1}}}}]'


# What is said of fields that are missing or one too many, and of names that there aren't.
NAMES = [
    ('[{"Return":{}}]', "/0/Return", missing("value")),
    ('[{"Return":{"valu":0}}]', "/0/Return", too_many("valu", "value")),
    ('[{"Return":7}]', "/0/Return", 'an object with the field "value"'),
    ('[{"Store":{"value":1}}]', "/0/Store", missing("pointer")),
    ('[{"Store":{"pointer":0,"z":2,"value":1,"a":2}}]', "/0/Store", too_many("a", "pointer", "value")),
    ('[{"Store":{"\\u001b\\"":0}}]', "/0/Store", too_many('\\u{1b}\\"', "pointer", "value")),
    ('[{"Store":[0,1]}]', "/0/Store", 'an object with the fields "pointer", "value"'),
    ('[{"RayPipelineFunction":"TraceRay"}]', "/0/RayPipelineFunction", one_of([], ["TraceRay"])),
    ('[{"RayQuery":{"query":0,"fun":{"Terminate":null}}}]', "/0/RayQuery/fun", STATEMENTS_OF_RAYS),
    (collective('"reduce"'), "/0/SubgroupCollectiveOperation/collective_op", COLLECTIVES),
    (collective("0"), "/0/SubgroupCollectiveOperation/collective_op", COLLECTIVES),
    ('[{"ControlBarrier":["TEXTURE","STORAGES"]}]', "/0/ControlBarrier/1",
     one_of(["STORAGE", "WORK_GROUP", "SUB_GROUP", "TEXTURE"])),
]
# Where reading stops. Of a field that is written twice the last counts.
STOPS = [
    ("7", ""), ('["Kill","kill"]', "/1"), ('[{"Return":{"value":-1}}]', "/0/Return/value"), ('[{"Return":{}}]', "/0/Return"),
    ('[{"If":{"condition":0,"accept":[null],"reject":[]}}]', "/0/If/accept/0"),
    ('[{"span":[0,1],"statement":{"Block":["a"]}}]', "/0/statement/Block/0"),
    ('[{"span":[0,-1],"statement":"Kill"}]', "/0/span/1"), ('[{"ControlBarrier":["STORAGE","STORAGE"]}]', "/0/ControlBarrier/1"),
    ('[{"Switch":{"selector":0,"cases":[{"value":{"I32":2147483648},"body":[],"fall_through":false}]}}]',
     "/0/Switch/cases/0/value/I32"),
    ('[{"Return":{"value":null,"value":-1}}]', "/0/Return/value"),
    # A pair of surrogates and a number that fits can be parsed, and then something else is expected in their place.
    ('["\\ud83d\\ude00"]', "/0"), ("1e30", ""),
]


def of_body(body, verdict=None, pointer=None):
    text, _ = placed(BODY, HOLE, body)
    return Text(f"the body {body[:60]}", text.encode(), verdict, pointer)


def bodies():
    """The brackets around the body are five: 61 blocks make 127, and one more is too many. A surrogate that stands alone, and a
    number too great for a float, are refused while the text is parsed."""
    nested = lambda blocks: "[" + '{"Block":[' * blocks + "]}" * blocks + "]"
    rows = [of_body(body, unreadable(BODY + way, expected)) for body, way, expected in NAMES]
    rows += [Text(f"the pointer of {body}", of_body(body).text, "exactly", BODY + way) for body, way in STOPS]
    rows += [of_body(nested(61)), of_body(nested(62), NO_JSON), of_body('[{"Return":{"value":-1,"value":null}}]')]
    return rows + [of_body(body, NO_JSON) for body in ('["\\ud800"]', '["\\udc00\\ud800"]', "1e400", "[-1e400]")]


def others():
    """A text behind a document; a second equal type, also where the one behind can't be read; and bytes that aren't UTF-8: one
    that no character has, one that begins a character that isn't there, and one of those that begin none."""
    ty = '{"name":null,"inner":{"Sampler":{"comparison":true}}}'
    text_of = lambda types: placed("/module/types", HOLE, types)[0].encode()
    of_types = lambda types, verdict=None: Text(f"{types.count('{') // 3} types", text_of(types), verdict, None)
    longer = Text("a text behind a document", of_body("[]").text + b"{}", NO_JSON, None)
    texts = [Text(f"the text {byte:x}", b'"' + bytes([byte]) + b'"', NO_JSON, None) for byte in (0xFF, 0xC3, 0x80)]
    return [
        longer, Text('the text "a"', b'"a"', NO_OBJECT, None), *texts,
        of_types(f"[{ty}]"), of_types(f"[{ty},{ty}]", unreadable("/module/types/1", "a type that doesn't equal an earlier one")),
        of_types(f"[{ty},{ty},0]", unreadable("/module/types/2", 'an object with the fields "name", "inner"')),
    ]


def texts():
    return values() + bodies() + others()


# Named forms, and the operands and the number that each stands for, as the listing of what is refused has them.

NAMED = [
    ('{"Splat":{"size":"Tri","value":4}}', "Splat", [4], 1),
    ('{"Swizzle":{"size":"Quad","vector":2,"pattern":["W","Z","Y","X"]}}', "Swizzle", [2], 539),
    ('{"Unary":{"op":"BitwiseNot","expr":7}}', "Unary", [7], 2),
    ('{"Binary":{"op":"ShiftRight","left":1,"right":2}}', "Binary", [1, 2], 17),
    ('{"Select":{"condition":3,"accept":1,"reject":2}}', "Select", [3, 1, 2], 0),
    ('{"Derivative":{"axis":"Width","ctrl":"None","expr":5}}', "Derivative", [5], 8),
    ('{"Relational":{"fun":"IsInf","argument":3}}', "Relational", [3], 3),
    ('{"Math":{"fun":"Refract","arg":1,"arg1":2,"arg2":3,"arg3":null}}', "Math", [1, 2, 3], 42),
    ('{"Math":{"fun":"Unpack4xU8","arg":9,"arg1":null,"arg2":null,"arg3":null}}', "Math", [9], 76),
    ('{"As":{"expr":4,"kind":"Uint","convert":4}}', "As", [4], 260),
    ('{"As":{"expr":4,"kind":"AbstractFloat","convert":null}}', "As", [4], 1280),
    ('{"ArrayLength":6}', "ArrayLength", [6], 0),
    ('{"ImageLoad":{"image":1,"coordinate":2,"array_index":null,"sample":3,"level":4}}', "ImageLoad", [1, 2, 3, 4], 6),
    ('{"ImageQuery":{"image":1,"query":{"Size":{"level":2}}}}', "ImageQuery", [1, 2], 0),
    ('{"ImageQuery":{"image":1,"query":{"Size":{"level":null}}}}', "ImageQuery", [1], 0),
    ('{"ImageQuery":{"image":1,"query":"NumSamples"}}', "ImageQuery", [1], 3),
    ('{"RayQueryGetIntersection":{"query":1,"committed":true}}', "RayQueryGetIntersection", [1], 1),
    ('{"RayQueryVertexPositions":{"query":1,"committed":false}}', "RayQueryVertexPositions", [1], 0),
    ('{"CooperativeLoad":{"columns":"Sixteen","rows":"Eight","role":"C","data":{"pointer":1,"stride":2,"row_major":true}}}',
     "CooperativeLoad", [1, 2], 17),
    ('{"CooperativeMultiplyAdd":{"a":1,"b":2,"c":3}}', "CooperativeMultiplyAdd", [1, 2, 3], 0),
]
# Of a sample what is gathered, the array index, the offset, the level, the depth reference and whether it is clamped.
SAMPLES = [
    ('"W"', 4, 5, '"Zero"', 6, "true", [1, 2, 3, 4, 5, 6], 384),
    ("null", "null", "null", '{"Gradient":{"x":7,"y":8}}', "null", "false", [1, 2, 3, 7, 8], 20),
    ("null", "null", "null", '{"Exact":9}', "null", "false", [1, 2, 3, 9], 10),
    ("null", "null", "null", '{"Bias":9}', "null", "false", [1, 2, 3, 9], 15),
]
LITERALS = [
    ('{"U32":5}', "Uint", 4, 5), ('{"I32":-1}', "Sint", 4, 4294967295),
    ('{"U64":18446744073709551615}', "Uint", 8, 18446744073709551615), ('{"I64":-2}', "Sint", 8, 18446744073709551614),
    ('{"Bool":true}', "Bool", 1, 1), ('{"F32":1.5}', "Float", 4, 1069547520), ('{"F32":0.1}', "Float", 4, 1036831949),
    ('{"F32":3}', "Float", 4, 1077936128), ('{"F64":0.1}', "Float", 8, 4591870180066957722),
    ('{"F64":-0}', "Float", 8, 9223372036854775808), ('{"AbstractFloat":2.5}', "AbstractFloat", 8, 4612811918334230528),
    ('{"AbstractInt":-9223372036854775808}', "AbstractInt", 8, 9223372036854775808),
]
# Of these kinds a listing has the operator or the function by its name.
OPERATIONS = {
    ("Unary", 2): "BitwiseNot", ("Binary", 17): "ShiftRight", ("Relational", 3): "IsInf", ("Math", 42): "Refract",
    ("Math", 76): "Unpack4xU8",
}


def sampled(gather, array_index, offset, level, depth_ref, clamps, *_):
    return (f'{{"ImageSample":{{"image":1,"sampler":2,"gather":{gather},"coordinate":3,"array_index":{array_index},'
            f'"offset":{offset},"level":{level},"depth_ref":{depth_ref},"clamp_to_edge":{clamps}}}}}')


def listed():
    """Each form, as an expression behind ten of u32 that nothing emits, and the line of the listing that has it."""
    rows = []
    for form, kind, operands, detail in NAMED + [(sampled(*it), "ImageSample", *it[-2:]) for it in SAMPLES]:
        places = "[" + ", ".join(f"[{it}]" for it in operands) + "]"
        name = OPERATIONS.get((kind, detail))
        rows.append((form, f"{name} {{ operands: {places} }}" if name else f"{kind} {{ operands: {places}, detail: {detail} }}"))
    for form, kind, width, bits in LITERALS:
        scalar = f"Scalar {{ kind: {kind}, width: {width} }}"
        rows.append((f'{{"Literal":{form}}}', f"Literal(Literal {{ scalar: {scalar}, bits: {bits} }})"))
    return [(form, document_of(form), f"  [10] {line}") for form, line in rows]


def document_of(form):
    """The text of a document whose last expression has a form, and is no condition of the If that names it."""
    told = base()
    made = told["module"]["functions"][0]
    made["expressions"] = [f.zero(0)] * 10 + [HOLE]
    made["body"] = [f.if_(10)]
    types = told["facts"]["functions"][0]["info"]
    types["types"], types["expressions"] = [{"Handle": 0}] * 11, [{"stages": f.STAGES}] * 11
    return json.dumps(told, separators=(",", ":")).replace(json.dumps(HOLE), form)
