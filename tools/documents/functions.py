"""Rows of functions as a whole: declarations, the order of the steps, settings, what the plain layer types, recorded facts; and
rows of globals."""

import form as f
import verdicts
from form import F32, HERE, I32, STAGES, U32
from module import Module, document, function
from plain import info_fact
from statements import one_function, rows_of

DATA = f.info(["DATA"])


def typed_module():
    """Types 0 u32, 1 i32 and 2 a pointer to u32 in the memory of a work group."""
    return Module(U32, I32, f.pointer(U32, "WorkGroup"))


def variable_fault(handle, source):
    return {"LocalVariable": {"handle": handle, "name": "", "source": source}}


# Declarations.

def variable_row(init, source, **settings):
    """A function with a variable of u32 without a name, and what is wrong with it."""
    made = function([f.literal(f.SINT), f.local_variable(0), f.load(1)], [], [(0, init)])
    return one_function(typed_module(), made, variable_fault(0, source), None, **settings)


def named_variable():
    """A variable with a name, whose initializer is an i32."""
    made = function([f.literal(f.SINT)], [], [(0, 0)])
    made["local_variables"][0]["name"] = "color"
    fault = {"LocalVariable": {"handle": 0, "name": "color", "source": "InitializerType"}}
    return one_function(typed_module(), made, fault, None)


def argument_row(ty, binding, fault, **settings):
    return one_function(typed_module(), function(arguments=[(ty, binding)]), fault, None, **settings)


def argument_of_an_entry_point():
    """An argument with a location, where that is an entry point's."""
    module = Module(U32)
    module.entry_point("Compute", function(arguments=[(0, f.location(0))]), [1, 1, 1])
    return document(module), verdicts.ok([], [verdicts.entry()])


def declarations():
    data = {"infos": [DATA] * 3}
    space = {"index": 0, "name": "", "space": "WorkGroup"}
    returns_nothing = one_function(typed_module(), function(result=(0, None)), STAGES)
    return rows_of("declarations", [
        variable_row(None, {"InvalidType": 0}, **data),
        variable_row(0, "InitializerType"),
        variable_row(2, "NonConstOrOverrideInitializer"),
        argument_row(2, None, {"InvalidArgumentPointerSpace": space}, **data),
        argument_row(0, f.location(0), {"PipelineInputRegularFunction": {"name": ""}}),
        argument_of_an_entry_point(),
        returns_nothing,
        named_variable(),
    ])


# The order of the steps. What a lower layer refuses, and which stages it leaves, is recorded.

STEPS = ["variable", "argument", "result", "expression", "body", "unfilled"]


def stepped_function(wrong):
    """A function that is wrong at these steps."""
    expressions = [{"Override": 0}, f.literal(f.SINT)] + ([f.atomic_result(0, False)] if "unfilled" in wrong else [])
    body = [f.here("Break")] if "body" in wrong else []
    variables = [(0, 0), (0, 1 if "variable" in wrong else None)]
    arguments = [(0, None), (2 if "argument" in wrong else 0, None)]
    bound = f.built_in("VertexIndex") if "result" in wrong else None
    return function(expressions, body, variables, arguments, (0, bound))


def stepped_fact(wrong, stages):
    """An info of it, whose expression 1 has a fault where it is wrong."""
    types = [{"Handle": 0}, {"Value": I32}] + ([{"Handle": 0}] if "unfilled" in wrong else [])
    second = {"error": {"Lower": 8}} if "expression" in wrong else {"stages": stages[1]}
    told = [{"stages": stages[0]}, second] + [{"stages": STAGES}] * (len(types) - 2)
    return info_fact(types, [], expressions=told)


def step_row(wrong, outcome, span=None, stages=(STAGES, STAGES), fact=None):
    module = typed_module()
    module.override(0)
    told = stepped_fact(wrong, stages) if fact is None else fact
    return one_function(module, stepped_function(wrong), outcome, span, functions=[told])


def steps():
    of_expression = {"Expression": {"handle": 1, "source": {"Lower": 8}}}
    refusal = {"Expression": {"handle": 0, "source": {"Lower": 7}}}
    variable = variable_fault(1, "InitializerType")
    argument = {"InvalidArgumentPointerSpace": {"index": 1, "name": "", "space": "WorkGroup"}}
    two = (["VERTEX", "FRAGMENT"], ["FRAGMENT", "COMPUTE"])
    return rows_of("steps", [
        step_row(STEPS, variable),
        step_row(STEPS[1:], argument),
        step_row(STEPS[2:], "PipelineOutputRegularFunction"),
        step_row(STEPS[3:], of_expression),
        step_row(STEPS[4:], "BreakOutsideOfLoopOrSwitch", HERE),
        step_row(STEPS[5:], {"UnvisitedExpression": 2}),
        step_row(["variable"], variable),
        step_row(["argument"], argument),
        step_row([], STAGES),
        step_row(STEPS, refusal, fact={"error": refusal}),
        step_row([], ["FRAGMENT"], stages=two),
    ])


# Settings.

def settings():
    barrier = function(body=[f.here({"ControlBarrier": ["SUB_GROUP"]})])
    unsupported = {"InvalidSubgroup": {"UnsupportedOperation": ["BASIC"]}}
    one_info_more = document(Module(), infos=[DATA]), verdicts.NOT_FIT
    return rows_of("settings", [
        one_function(Module(), barrier, unsupported, stages=[], operations=[]),
        one_function(Module(), barrier, f.COMPUTE_LIKE, stages=["COMPUTE"], operations=["BASIC"]),
        one_info_more,
    ])


# What the plain layer types.

def typed_row(second, declared, outcome, span=None):
    """A function of a u32 literal and another expression, which returns the literal where a type is declared."""
    module = Module(f.BOOL, U32, I32)
    ends = f.here(f.return_(None if declared is None else 0))
    result = None if declared is None else (declared, None)
    return one_function(module, function([f.literal(f.UINT, 7), second], [ends], result=result), outcome, span)


def typed():
    literal = f.literal(f.UINT, 7)
    mismatch = {"InvalidReturnType": {"expression": 0, "expected_ty": 2}}
    splat = {"Splat": {"operands": [], "detail": 0}}
    untyped = lambda expression: typed_row(expression, None, {"Expression": {"handle": 1, "source": {"Lower": 1}}})
    return rows_of("plain", [
        typed_row(literal, 1, STAGES),
        typed_row(literal, 2, mismatch, HERE),
        untyped(splat),
    ])


# Globals, each alone in its module.

ADDRESS_TYPES = [U32, I32, f.binding_array(U32), f.struct([], 0), f.struct([], 3)]
WRITE_ONLY = f.storage("STORE")
BAD_LAYOUTS = f.info(storage=(1, 7), uniform=(1, 8))


def global_row(space, ty, fault=None, binding=None, init=None, decorations=(), told=f.GOOD, flags=f.FLAGS):
    module = Module(*ADDRESS_TYPES)
    module.global_(space, ty, binding, init, decorations)
    module.global_expression(f.literal(f.UINT), 0)
    module.global_expression(f.literal(f.SINT), 1)
    module.global_expression("RayQueryProceedResult", 1)
    expected = verdicts.ok() if fault is None else verdicts.in_global(0, fault)
    return document(module, flags=flags, infos=[told] * len(ADDRESS_TYPES)), expected


def globals_():
    lacking = lambda flag: f.without(f.FLAGS, flag)
    return rows_of("globals", [
        global_row(WRITE_ONLY, 0, "StorageAddressSpaceWriteOnlyNotSupported", 0),
        global_row(WRITE_ONLY, 0, {"Alignment": [WRITE_ONLY, 1, 7]}, 0, told=BAD_LAYOUTS),
        global_row("Uniform", 0, "InvalidBinding"),
        global_row("Uniform", 0, flags=lacking("BINDINGS")),
        global_row("Uniform", 0, None, 0, told=BAD_LAYOUTS, flags=lacking("STRUCT_LAYOUTS")),
        global_row("TaskPayload", 3, "ZeroSizedTaskPayload"),
        global_row("TaskPayload", 4),
        global_row("Uniform", 0, "InvalidMemoryDecorationsAddressSpace", 0, decorations=["COHERENT"]),
        global_row("Private", 2, {"InvalidUsage": "Private"}),
        global_row("Handle", 0, {"InvalidType": "Handle"}),
        global_row("WorkGroup", 0, {"InitializerNotAllowed": "WorkGroup"}, init=0),
        global_row("Private", 0, "InitializerType", init=1),
        global_row("Private", 0, "InitializerExprType", init=2),
        global_row("Private", 0, init=0),
    ])


# Recorded facts: what is answered where a fact is there, missing, or against a law.

USELESS = {"Expression": {"handle": 0, "source": {"Lower": 0}}}


def recorded_row(facts, outcome):
    """A function of one u32 literal, in a module of one global, over these facts of functions."""
    module = Module(U32)
    module.global_("Private", 0)
    return one_function(module, function([f.literal(f.UINT, 7)]), outcome, None, functions=facts)


def one_type(ty):
    return [info_fact([ty], [["READ"]], ["FRAGMENT"])]


def typed_facts():
    """Each type that an info may name, or not, in order."""
    named = [({"Handle": 0}, True), ({"Handle": 1}, False), ({"Value": F32}, True), ({"Value": f.struct([], 0)}, False)]
    for base, is_lawful in [(0, True), (1, False)]:
        named += [({"Value": f.pointer(base, "Private")}, is_lawful)]
        named += [({"Value": f.array(base, None)}, is_lawful)]
        named += [({"Value": f.binding_array(base)}, is_lawful)]
    return [recorded_row(one_type(ty), ["FRAGMENT"] if is_lawful else USELESS) for ty, is_lawful in named]


def recorded():
    counted = [
        recorded_row([info_fact([{"Handle": 0}] * types, [["READ"]] * uses, ["FRAGMENT"])], USELESS)
        for types, uses in [(0, 1), (2, 1), (1, 0), (1, 2)]
    ]
    errors = [
        {"Expression": {"handle": 4, "source": {"Lower": 9}}}, {"MissingRayQueryVertexReturn": 4},
        {"NonUniformControlFlow": [3, 4, 5]}, {"NonUniformWorkgroupUniformLoad": 5}, {"InvalidMeshFunctionCall": 4},
        {"ConflictingMeshOutputTypes": [4, 2]}, {"ConflictingTaskPayloadVariables": [4, 2]},
        {"InvalidMeshShaderOutputType": 4},
    ]
    of_expressions = [
        ([{"stages": ["FRAGMENT"]}], ["FRAGMENT"]),
        ([{"error": "InvalidImageArrayIndex"}], {"Expression": {"handle": 0, "source": "InvalidImageArrayIndex"}}),
        ([], USELESS),
        ([{"stages": ["FRAGMENT"]}, {"stages": ["VERTEX"]}], ["FRAGMENT"]),
    ]
    told = [
        recorded_row([info_fact([{"Handle": 0}], [[]], expressions=expressions)], outcome)
        for expressions, outcome in of_expressions
    ]
    refused = [recorded_row([{"error": error}], error) for error in errors]
    return rows_of("recorded", typed_facts() + counted + [recorded_row([], USELESS)] + refused + told)
