"""Rows of statements: stores, atomic operations, subgroups, places, a skipped argument, and what Emits use."""

import form as f
from form import BOOL, F32, HERE, I32, STAGES, U32
from module import Module, document, function
from plain import info_fact
from verdicts import WITH_ALL, Row, last_function, not_in_scope


def rows_of(title, rows):
    """Rows with their names: the title, and a number from 1. What is accepted stays so with more capabilities."""
    return [
        Row(f"{title} {number}", row[0], row[1], "ok" in row[1] or row[2:] == WITH_ALL) for number, row in enumerate(rows, 1)
    ]


def one_function(module, made, outcome, span=HERE, **settings):
    """The document of a module with one function more, and the verdict of that function's outcome."""
    module.function(made)
    return document(module, **settings), last_function(module, outcome, span)


# Uniform loads of work groups, and stores.

def store_row(statement, outcome):
    module = Module(
        U32, F32, f.cooperative(f.FLOAT), f.vector("Bi", f.SINT), f.vector("Quad", f.UINT), f.vector("Quad", f.FLOAT),
        f.storage_image("R32Uint", ["LOAD", "STORE"]), f.storage_image("R32Float", ["LOAD", "STORE", "ATOMIC"]),
    )
    module.global_("WorkGroup", 0)
    module.global_("Handle", 6, binding=0)
    module.global_("Handle", 7, binding=1)
    expressions = [
        f.global_variable(0), {"WorkGroupUniformLoadResult": {"ty": 0}}, f.zero(2), f.local_variable(0), f.global_variable(1),
        f.zero(3), f.zero(4), f.zero(5), f.literal(f.SINT), f.global_variable(2), f.zero(0),
    ]
    return one_function(module, function(expressions, [f.here(statement)], [1]), outcome)


def stores():
    in_store = lambda error: {"InvalidImageStore": error}
    in_atomic = lambda error: {"InvalidImageAtomic": error}
    of_floats = {
        "actual": 7, "actual_ty": f.vector("Quad", f.FLOAT), "expected_ty": f.vector("Quad", f.UINT),
    }
    return rows_of("stores", [store_row(*row) for row in [
        (f.uniform_load(0, 1), f.COMPUTE_LIKE),
        (f.uniform_load(3, 1), {"WorkgroupUniformLoadInvalidPointer": 3}),
        (f.cooperative_store(2, 3), ["COMPUTE"]),
        (f.cooperative_store(10, 3), {"InvalidCooperativeStoreTarget": 10}),
        (f.image_store(4, 5, None, 6), STAGES),
        (f.image_store(4, 5, None, 7), {"InvalidStoreValue": of_floats}),
        (f.image_store(4, 8, None, 6), in_store({"InvalidImageCoordinateType": ["D2", 8]})),
        (f.image_store(4, 5, 8, 6), in_store("InvalidImageArrayIndex")),
        (f.image_atomic("Add", 4, 5, 10), in_atomic({"InvalidImageStorageAccess": ["LOAD", "STORE"]})),
        (f.image_atomic("Add", 9, 5, 10), in_atomic({"InvalidImageFormat": "R32Float"})),
    ]])


# Atomic operations.

def atomic_row(capabilities, of, mark, statements, outcome, span, *with_all):
    """Atomic operations on a scalar in storage. Expression 2 is an atomic result with a mark, or, without one, a negation."""
    module = Module(f.atomic(of), f.scalar(of))
    module.global_(f.storage("LOAD", "STORE"), 0, binding=0)
    last = f.unary(1) if mark is None else f.atomic_result(1, mark)
    made = function([f.global_variable(0), f.literal(of, 1), last], statements)
    return (*one_function(module, made, outcome, span, capabilities=capabilities), *with_all)


def atomics():
    wide, weaker = f.WIDE, ["SHADER_INT64_ATOMIC_MIN_MAX"]
    refused = lambda error: {"InvalidAtomic": error}
    add = lambda result: f.atomic_of("Add", 0, 1, result)
    exchange = lambda compare: [f.here(f.atomic_of({"Exchange": {"compare": compare}}, 0, 1, None))]
    alone = lambda fun: [f.here(f.atomic_of(fun, 0, 1, None))]
    all_operations = {"MissingCapability": ["SHADER_INT64_ATOMIC_ALL_OPS"]}
    return rows_of("atomics", [atomic_row(*row) for row in [
        ([], f.UINT, False, [f.here(add(2))], STAGES, None),
        ([], f.UINT, True, [f.here(add(2))], refused({"ResultExpressionExchange": 2}), HERE),
        ([], f.UINT, False, [f.here(add(None))], {"UnvisitedExpression": 2}, None),
        ([], f.UINT, False, [add(2), f.here(add(2))], refused({"ResultAlreadyPopulated": 2}), HERE),
        ([], f.UINT, None, exchange(None), refused("MissingReturnValue"), HERE),
        ([], f.UINT, None, exchange(2), STAGES, None),
        (weaker, wide, None, alone("Min"), STAGES, None),
        (["SHADER_FLOAT32_ATOMIC"], f.FLOAT, None, alone("Max"), refused({"InvalidOperator": "Max"}), HERE),
        (weaker, wide, False, [f.here(f.atomic_of("Min", 0, 1, 2))], refused(all_operations), HERE, True),
    ]])


# Barriers and the statements of subgroups.

def subgroup_row(statement, outcome, **settings):
    module = Module(U32, I32, BOOL, f.vector("Bi", f.BOOLEAN))
    expressions = [
        f.zero(0), f.literal(f.SINT), f.zero(2), f.zero(3), f.local_variable(0), f.load(4), f.operation_result(0),
        f.operation_result(1), f.operation_result(2), "SubgroupBallotResult",
    ]
    made = function(expressions, [f.emit(5, 6), f.here(statement)], [0])
    return one_function(module, made, outcome, **settings)


def subgroups():
    refused = lambda error: {"InvalidSubgroup": error}
    lacking = lambda group: {"operations": f.without(f.OPERATIONS, group)}
    unsupported = lambda group: refused({"UnsupportedOperation": [group]})
    broadcast = lambda index, argument, result: f.gather({"Broadcast": index}, argument, result)
    both = {"MissingCapability": ["SUBGROUP", "SUBGROUP_BARRIER"]}
    rows = [subgroup_row(statement, outcome, **settings) for statement, outcome, settings in [
        (f.ballot(9), f.COMPUTE_LIKE, {"stages": f.COMPUTE_LIKE}),
        (f.ballot(9), unsupported("BALLOT"), lacking("BALLOT")),
        (f.collective("And", "Reduce", 0, 6), STAGES, {}),
        (f.collective("And", "InclusiveScan", 0, 6), refused("UnknownOperation"), {}),
        (f.collective("All", "Reduce", 3, 8), refused({"InvalidOperand": 3}), {}),
        (f.collective("All", "Reduce", 2, 8), unsupported("VOTE"), lacking("VOTE")),
        (broadcast(0, 1, 7), STAGES, {}),
        (broadcast(5, 1, 7), refused({"InvalidInvocationIdExprType": 5}), {}),
        (broadcast(1, 0, 6), refused({"InvalidOperand": 0}), {}),
        ({"ControlBarrier": ["WORK_GROUP"]}, f.COMPUTE_LIKE, {"capabilities": []}),
    ]]
    barrier = subgroup_row({"MemoryBarrier": ["SUB_GROUP"]}, both, capabilities=["SUBGROUP"])
    return rows_of("subgroups", rows + [barrier + WITH_ALL])


# Places of faults.

def place_row(statement, outcome):
    """A statement inside a Block elsewhere."""
    body = [f.at([1, 9], f.block(f.here(statement)))]
    return one_function(Module(), function([f.literal(f.UINT, 7)], body), outcome)


def places():
    switch = lambda *values: f.switch(0, *[f.case(value) for value in values])
    one = {"U32": 1}
    return rows_of("places", [place_row(*row) for row in [
        (f.loop(break_if=0), {"InvalidIfType": 0}),
        (switch(), "MissingDefaultCase"),
        (switch(one, one), {"ConflictingSwitchCase": one}),
    ]])


# An argument of a call that a Continue may have skipped.

def skipped_row(emits_first, outcome):
    module = Module(U32)
    module.function(function(arguments=[(0, None)]))
    emits, goes_on = f.here(f.emit(2, 3)), f.here(f.if_(0, [f.here("Continue")]))
    body = [emits, goes_on] if emits_first else [goes_on, emits]
    statement = f.loop(body, [f.here(f.call(0, [2]))])
    expressions = [f.literal(f.BOOLEAN, 1), f.local_variable(0), f.load(1)]
    return one_function(module, function(expressions, [f.here(statement)], [0]), outcome)


def skipped():
    missing = {"function": 0, "error": {"Argument": {"index": 0, "source": "NotInScope"}}}
    return rows_of("skipped", [skipped_row(True, STAGES), skipped_row(False, {"InvalidCall": missing})])


# Operands of what an Emit emits.

def operand_row(statements, missing):
    module = Module(U32, f.ray_query())
    module.function(function(result=(0, None)))
    expressions = [
        f.literal(f.UINT, 7), f.local_variable(0), f.local_variable(1), f.load(1), f.unary(3), f.compose(0, 3, 4),
        f.call_result(0), f.unary(6),
    ]
    made = function(expressions, [f.here(statement) for statement in statements], [0, 1])
    return one_function(module, made, STAGES if missing is None else not_in_scope(missing))


def access_row(statements, missing):
    """An access, of which the plain layer has no type: its type is given."""
    module = Module(U32)
    access = {"Access": {"base": 1, "index": 2}}
    made = function(
        [f.literal(f.UINT, 7), f.unary(0), f.unary(0), access], [f.here(statement) for statement in statements],
    )
    fact = info_fact([{"Handle": 0}] * 4, [])
    return one_function(module, made, STAGES if missing is None else not_in_scope(missing), functions=[fact])


def operands():
    emit, calls = f.emit, f.call(0, result=6)
    rows = [operand_row(*row) for row in [
        ([emit(3, 4), calls], None),
        ([emit(4, 5), calls], 3),
        ([emit(3, 5), calls], None),
        ([emit(5, 6), calls], 3),
        ([emit(3, 4), emit(5, 6)], 4),
        ([emit(3, 6), calls], None),
        ([calls, emit(7, 8)], None),
        ([emit(7, 8), calls], 6),
        ([f.proceed(2, 4), emit(4, 5)], 3),
    ]]
    accesses = [access_row(*row) for row in [
        ([emit(3, 4)], 1),
        ([emit(1, 2), emit(3, 4)], 2),
        ([emit(2, 3), emit(3, 4)], 1),
        ([emit(1, 4)], None),
    ]]
    return rows_of("operands", rows + accesses)


# Ray queries and ray traces.

def ray_row(body, last, outcome, span):
    """Globals 0 and 1 are payloads of u32 and f32, 2 and 3 structures with and without the flag; 4 is a descriptor, 5 a u32 and 6
    a query."""
    module = Module(
        U32, F32, f.ray_query(), f.acceleration_structure(True), f.acceleration_structure(False), f.vector("Quad", f.FLOAT),
    )
    module.global_("RayPayload", 0)
    module.global_("RayPayload", 1)
    module.global_("Handle", 3, binding=0)
    module.global_("Handle", 4, binding=1)
    module.ray_descriptor(5)
    module.function(function(result=(0, None)))
    expressions = [f.global_variable(index) for index in range(4)] + [f.zero(5), f.zero(0), f.local_variable(0), last]
    return one_function(module, function(expressions, body, [2]), outcome, span)


def rays():
    trace = lambda place, structure=2, descriptor=4, payload=0: f.at(
        [place, place], f.trace_ray(structure, descriptor, payload))
    query = lambda of: [f.at([1, 1], f.proceed(of, 7))]
    in_block = [f.at([2, 2], f.block(*query(6))), f.at([3, 3], f.call(0, result=7))]
    rows = [
        (query(6), f.unary(5), STAGES, None),
        (query(5), f.unary(5), {"InvalidRayQueryExpression": 5}, [1, 1]),
        (in_block, f.call_result(0), STAGES, None),
        ([trace(0), trace(1, payload=1)], f.zero(0), {"MismatchedPayloadType": [1, 0]}, [1, 1]),
        ([trace(0), trace(1, structure=3), trace(2)], f.zero(0), STAGES, None),
        ([trace(0, descriptor=5)], f.zero(0), {"InvalidRayDescriptor": 5}, [0, 0]),
        ([trace(0, payload=1)], f.zero(0), STAGES, None),
    ]
    return rows_of("rays", [ray_row(*row) for row in rows])
