"""Rows of faults that no other row shows, worked out from the lists of docs/CHECKS.md: each fault by a document that is wrong in
nothing earlier."""

import form as f
from entry import AT_FRAGMENT, AT_VERTEX, TypeOf, entry_row
from form import BOOL, F32, HERE, I32, U32
from module import Module, function
from plain import info_fact
from statements import one_function, rows_of


def module_of(types, variables=()):
    """A module of these types, and of globals of a space and a type; those that have to be are bound."""
    module = Module(*types)
    for space, ty in variables:
        is_bound = space in ("Handle", "Uniform") or isinstance(space, dict)
        module.global_(space, ty, len(module.parts["global_variables"]) if is_bound else None)
    return module


def row(module, expressions, body, fault, local_variables=(), types=None):
    """A function with this fault, at its last statement. `types` are given where the plain layer doesn't type all of them."""
    body = [*body[:-1], f.here(body[-1])]
    facts = None
    if types is not None:
        uses = [["READ"]] * len(module.parts["global_variables"])
        facts = [info_fact(types, uses)]
    return one_function(module, function(expressions, body, local_variables), fault, HERE, functions=facts)


# Images.

ACCESS = ["LOAD", "STORE", "ATOMIC"]
SAMPLED = {"Sampled": {"kind": "Float", "multi": False}}


def image_row(statement, fault):
    """Expressions 0 to 3 are images (arrayed, sampled, none but a sampler, good), 4 a coordinate, 5 four u32, 6 an f32, 7 a u32,
    and 8 an access to the good image."""
    arrayed = f.storage_image("R32Uint", ACCESS)
    arrayed["Image"]["arrayed"] = True
    module = module_of([
        arrayed, f.image(SAMPLED), f.sampler(), f.vector("Bi", f.SINT), f.vector("Quad", f.UINT), U32, F32,
        f.storage_image("R32Uint", ACCESS),
    ], [("Handle", 0), ("Handle", 1), ("Handle", 2), ("Handle", 7)])
    expressions = [f.global_variable(index) for index in range(4)] + [
        f.zero(3), f.zero(4), f.zero(6), f.literal(f.UINT), {"AccessIndex": {"base": 3, "index": 0}},
    ]
    types = [{"Handle": ty} for ty in (0, 1, 2, 7, 3, 4, 6)] + [{"Value": U32}, {"Handle": 5}]
    return row(module, expressions, [statement], fault, types=types)


def images():
    in_store, in_atomic = (lambda error: {"InvalidImageStore": error}), (lambda error: {"InvalidImageAtomic": error})
    exchange = {"Exchange": {"compare": None}}
    return [image_row(*told) for told in [
        (f.image_store(5, 4, None, 5), in_store("ExpectedGlobalVariable")),
        (f.image_store(8, 4, None, 5), in_store({"ExpectedBindingArrayType": 7})),
        (f.image_store(2, 4, None, 5), in_store({"ExpectedImageType": 2})),
        (f.image_store(1, 4, None, 5), in_store({"InvalidImageClass": SAMPLED})),
        (f.image_store(0, 4, 6, 5), in_store({"InvalidImageArrayIndexType": 6})),
        (f.image_atomic("Add", 5, 4, 7), in_atomic("ExpectedGlobalVariable")),
        (f.image_atomic("Add", 2, 4, 7), in_atomic({"ExpectedImageType": 2})),
        (f.image_atomic("Add", 1, 4, 7), in_atomic({"InvalidImageClass": SAMPLED})),
        (f.image_atomic(exchange, 3, 4, 7), {"InvalidImageAtomicFunction": exchange}),
        (f.image_atomic("Add", 3, 4, 6), {"InvalidImageAtomicValue": 6}),
    ]]


# Calls, atomic operations, stores.

def calls():
    found = []
    for arguments, error in [
        ([], {"ArgumentCount": {"required": 1, "seen": 0}}),
        ([0], {"ArgumentType": {"index": 0, "required": 0, "seen_expression": 0}}),
    ]:
        module = module_of([U32])
        module.function(function(arguments=[(0, None)]))
        fault = {"InvalidCall": {"function": 0, "error": error}}
        made = function([f.literal(f.FLOAT)], [f.here(f.call(0, arguments))])
        found.append(one_function(module, made, fault))
    return found


def exchanged(old):
    """The struct that a compare exchange gives."""
    made = f.struct([(old, None), (BOOL, None)], 8)
    for member, name in zip(made["Struct"]["members"], ("old_value", "exchanged")):
        member["name"] = name
    return made


def atomic_row(statement, error):
    """Expressions 0 is an atomic u32 in storage, 1 an atomic f32 in a work group, 2 to 4 a u32, an f32 and an i32, and 5 and 6
    results that aren't marked: of i32, and of a compare exchange."""
    module = module_of([f.atomic(f.UINT), U32, F32, f.atomic(f.FLOAT), I32], [(f.storage("LOAD", "STORE"), 0), ("WorkGroup", 3)])
    exchange = module.type(exchanged(U32))
    expressions = [
        f.global_variable(0), f.global_variable(1), f.literal(f.UINT), f.literal(f.FLOAT), f.literal(f.SINT),
        f.atomic_result(4, False), f.atomic_result(exchange, False),
    ]
    return row(module, expressions, [statement], {"InvalidAtomic": error})


def atomics():
    compare = lambda of: {"Exchange": {"compare": of}}
    return [atomic_row(*told) for told in [
        (f.atomic_of("Add", 2, 2, None), {"InvalidPointer": 2}),
        (f.atomic_of("Add", 0, 4, None), {"InvalidOperand": 4}),
        (f.atomic_of("Add", 1, 3, None), {"InvalidAddressSpace": "WorkGroup"}),
        (f.atomic_of("Add", 0, 2, 2), {"InvalidResultExpression": 2}),
        (f.atomic_of("Add", 0, 2, 5), {"ResultTypeMismatch": 5}),
        (f.atomic_of(compare(4), 0, 2, 6), {"InvalidOperand": 4}),
        (f.atomic_of(compare(2), 0, 2, 5), {"ResultTypeMismatch": 5}),
        (f.atomic_of(compare(2), 0, 2, 6), {"ResultExpressionNotExchange": 6}),
    ]]


def stores():
    """A sampler as a value; data of another scalar than a matrix has; a result that isn't a load's, or is of another type."""
    texture = {"InvalidStoreTexture": {"actual": 0, "actual_ty": f.sampler()}}
    of_sampler = module_of([f.sampler(), U32], [("Handle", 0)])
    of_matrix = module_of([f.cooperative(f.FLOAT), U32])
    store = {"Store": {"pointer": 1, "value": 0}}
    found = [
        row(of_sampler, [f.global_variable(0), f.local_variable(0)], [store], texture, [1]),
        row(of_matrix, [f.zero(0), f.local_variable(0)], [f.cooperative_store(0, 1)], {"InvalidCooperativeDataPointer": 1}, [1]),
    ]
    for result, fault in [
        (f.unary(0), {"WorkgroupUniformLoadExpressionMismatch": 1}),
        ({"WorkGroupUniformLoadResult": {"ty": 1}}, {"WorkgroupUniformLoadInvalidPointer": 0}),
    ]:
        module = module_of([U32, I32], [("WorkGroup", 0)])
        found.append(row(module, [f.global_variable(0), result], [f.uniform_load(0, 1)], fault))
    return found


def subgroups_and_declarations():
    of_i32 = [f.literal(f.UINT), f.operation_result(0)]
    mismatch = {"InvalidSubgroup": {"ResultTypeMismatch": 1}}
    no_argument = {"InvalidArgumentType": {"index": 0, "name": ""}}
    untold = {"infos": [f.info(["DATA", "SIZED"])]}
    return [
        row(module_of([I32]), of_i32, [f.collective("Add", "Reduce", 0, 1)], mismatch),
        one_function(module_of([U32]), function(arguments=[(0, None)]), no_argument, None, **untold),
        one_function(module_of([U32]), function(result=(0, None)), "NonConstructibleReturnType", None, **untold),
    ]


# Rays.

def ray_row(statement, fault):
    """Expressions 0 and 1 are locals, a query that returns vertices and a u32; 2 a structure that doesn't, 3 a u32, 4 a
    descriptor, 5 and 6 globals of u32 in Private and in RayPayload, and 7 an access to the latter, which is emitted."""
    module = module_of(
        [f.ray_query(True), f.acceleration_structure(False), U32, f.vector("Quad", f.FLOAT)],
        [("Handle", 1), ("Private", 2), ("RayPayload", 2)],
    )
    module.ray_descriptor(3)
    expressions = [
        f.local_variable(0), f.local_variable(1), f.global_variable(0), f.zero(2), f.zero(3), f.global_variable(1),
        f.global_variable(2), {"AccessIndex": {"base": 6, "index": 0}},
    ]
    of_payload = {"Value": f.pointer(2, "RayPayload")}
    types = [
        {"Value": f.pointer(0, "Function")}, {"Value": f.pointer(2, "Function")}, {"Handle": 1}, {"Handle": 2}, {"Handle": 3},
        {"Value": f.pointer(2, "Private")}, of_payload, of_payload,
    ]
    return row(module, expressions, [f.emit(7, 8), statement], fault, [0, 2], types)


def rays():
    query = lambda of, fun: {"RayQuery": {"query": of, "fun": fun}}
    begins = lambda structure: query(0, {"Initialize": {"acceleration_structure": structure, "descriptor": 4}})
    return [ray_row(*told) for told in [
        (query(1, "Terminate"), {"InvalidRayQueryType": 2}),
        (begins(3), {"InvalidAccelerationStructure": 3}),
        (begins(2), {"MissingAccelerationStructureVertexReturn": [2, 0]}),
        (query(0, {"GenerateIntersection": {"hit_t": 3}}), {"InvalidHitDistanceType": 3}),
        (f.trace_ray(3, 4, 6), {"InvalidAccelerationStructure": 3}),
        (f.trace_ray(2, 4, 3), "InvalidPayloadType"),
        (f.trace_ray(2, 4, 5), {"InvalidPayloadAddressSpace": "Private"}),
        (f.trace_ray(2, 4, 7), "PayloadPointerNotGlobal"),
    ]]


# What goes in and out.

def items():
    takes = lambda case, ty, binding: case.but(arguments=((ty, binding),))
    unshared = f.struct([(F32, None)], 4)
    in_stage = {"InvalidInterpolationInStage": ["PerVertex", "Fragment"]}
    source = AT_FRAGMENT.but(declared=(F32, f.location(0, blend_src=0)))
    by_vertex = f.location(0, "PerVertex")
    return [
        entry_row(takes(AT_FRAGMENT, unshared, f.location(0)), {"Argument": [0, {"NotIOShareableType": TypeOf(unshared)}]}),
        entry_row(source, {"Result": "BlendSrcNotOnStructMember"}),
        entry_row(takes(AT_FRAGMENT, F32, by_vertex), {"Argument": [0, "PerVertexNotArrayOfThree"]}),
        entry_row(takes(AT_VERTEX, f.array(F32, 3), by_vertex), {"Argument": [0, in_stage]}),
    ]


def unshown():
    tables = [images, calls, atomics, stores, subgroups_and_declarations, rays, items]
    return rows_of("unshown", [told for table in tables for told in table()])
