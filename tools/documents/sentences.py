"""The sentences of faults, as people read them: what each says, and what a fault inside says behind it."""

from places import Walk

FUNCTIONS = {
    "Expression": "an expression, or an operand of a statement, is invalid",
    "ExpressionAlreadyInScope": "a statement brings an expression into scope that is already in scope",
    "LocalVariable": "a local variable is invalid",
    "InvalidArgumentType": "an argument is of a type that can't be passed",
    "NonConstructibleReturnType": "the return type must be constructible",
    "InvalidArgumentPointerSpace": "a pointer argument points into an address space other than `Function` and `Private`",
    "BreakOutsideOfLoopOrSwitch": "a break must be inside a loop body or a switch case, with no continuing block between",
    "ContinueOutsideOfLoop": "a continue must be inside a loop body, with no continuing block between",
    "InvalidReturnSpot": "a return stands in a continuing block",
    "InvalidReturnType": "the returned value doesn't match the declared return type, or only one of them is there",
    "InvalidIfType": "the condition of an if, or the `break_if` of a loop, is not a bool",
    "InvalidSwitchType": "the selector of a switch is not made of integers",
    "ConflictingSwitchCase": "two cases of a switch have this value",
    "ConflictingCaseType": "a case value is signed and the selector isn't, or the other way round",
    "MissingDefaultCase": "a switch has no default case",
    "MultipleDefaultCases": "a switch has more than one default case",
    "LastCaseFallTrough": "the last case of a switch falls through",
    "InvalidStorePointer": "the pointer doesn't lead to a variable or an argument, or its address space is not writable",
    "InvalidStoreTexture": "the stored value is an image or a sampler",
    "InvalidStoreValue": "the value of an image store is of another type than the image's format has",
    "InvalidStoreTypes": "the stored value is not of the type that the pointer points to",
    "InvalidImageStore": "the image, the coordinate or the array index of an image store is invalid",
    "InvalidImageAtomic": "the image, the coordinate or the array index of an image atomic is invalid",
    "InvalidImageAtomicFunction": "the image's format doesn't support this atomic operation",
    "InvalidImageAtomicValue": "the value of an image atomic is not of the scalar type of the image's format",
    "InvalidCall": "a call of this function is invalid",
    "InvalidAtomic": "an atomic operation is invalid",
    "InvalidRayQueryExpression": "the ray query is not a local variable",
    "InvalidAccelerationStructure": "the expression is not an acceleration structure",
    "MissingAccelerationStructureVertexReturn":
        "the ray query (second) returns vertices, and the acceleration structure (first) doesn't",
    "MissingRayQueryVertexReturn": "the ray query doesn't return vertices",
    "InvalidRayDescriptor": "the expression is not of the module's ray descriptor type",
    "InvalidRayQueryType": "the variable is not of the ray query type",
    "InvalidHitDistanceType": "the hit distance is not a float",
    "MissingCapability": "the target lacks a capability that a statement needs",
    "NonUniformControlFlow": "the expression needs uniform control flow",
    "PipelineInputRegularFunction": "an argument has a binding, and the function is not an entry point",
    "PipelineOutputRegularFunction": "the result has a binding, and the function is not an entry point",
    "NonUniformWorkgroupUniformLoad": "a workgroup uniform load needs uniform control flow",
    "WorkgroupUniformLoadExpressionMismatch": "the result of a workgroup uniform load is not a `WorkGroupUniformLoadResult`",
    "WorkgroupUniformLoadInvalidPointer":
        "a workgroup uniform load reads outside of `WorkGroup`, or another type than its result has",
    "InvalidSubgroup": "a subgroup operation or a subgroup barrier is invalid",
    "InvalidCooperativeStoreTarget": "the target of a cooperative store is not a cooperative matrix",
    "InvalidCooperativeDataPointer": "the data pointer of a cooperative store points to another scalar type than the matrix has",
    "EmitResult": "an emit covers the result of another statement, which alone brings it into scope",
    "UnvisitedExpression": "no call and no atomic operation of the body has this result",
    "InvalidMeshFunctionCall": "a count that a mesh shader sets is not a `u32`",
    "ConflictingMeshOutputTypes": "a mesh shader has outputs of two types",
    "ConflictingTaskPayloadVariables": "a function uses two task payloads",
    "InvalidMeshShaderOutputType": "an output of a mesh shader is not a struct",
    "InvalidPayloadType": "the payload of a ray is not a pointer",
    "InvalidPayloadAddressSpace": "the payload of a ray is in this address space, which is not for ray payloads",
    "MismatchedPayloadType": "the payload of this ray is of the first type, and that of an earlier ray of the second",
    "PayloadPointerNotGlobal": "the payload of a ray is not a global variable",
}

EXPRESSIONS = {
    "NotInScope": "the expression is not in scope where it is used",
    "ExpectedGlobalVariable": "the image is not a global variable, and not an element of one",
    "ExpectedBindingArrayType": "the image is an element of a global that is not a binding array",
    "ExpectedImageType": "the global is of this type, which is not an image",
    "InvalidImageClass": "the operation isn't supported on images of this class",
    "InvalidImageCoordinateType": "the coordinate doesn't fit an image of this dimension",
    "InvalidImageArrayIndex": "there is an array index and the image isn't arrayed, or the other way round",
    "InvalidImageArrayIndexType": "the array index is not an integer scalar",
    "InvalidImageStorageAccess": "the image isn't declared with the access that the operation needs",
    "InvalidImageFormat": "the operation isn't supported on texels of this format",
    "Lower": "the layer below refuses the expression, for a reason of its own",
}

LOCALS = {
    "InvalidType": "the type of a local variable must be constructible",
    "InitializerType": "the initializer is of another type than the variable",
    "NonConstOrOverrideInitializer": "the initializer must be a constant or an override expression",
}

CALLS = {
    "Argument": "an argument is invalid",
    "ResultAlreadyInScope": "the result is in scope before the call",
    "ResultAlreadyPopulated": "an earlier call or atomic operation has this result, or the flag EXPRESSIONS is off",
    "ArgumentCount": "the call passes more or fewer arguments than the function declares",
    "ArgumentType": "an argument is of another type than the function declares",
    "ExpressionMismatch": "the call must have a result, a `CallResult` of its function, exactly if the function returns a value",
}

ATOMICS = {
    "InvalidPointer": "the pointer doesn't point to an atomic",
    "InvalidAddressSpace": "the operation isn't supported on this scalar type in this address space",
    "InvalidOperand": "the value, or the value to compare with, is not of the atomic's scalar type",
    "InvalidOperator": "the operation isn't supported on the atomic's scalar type",
    "InvalidResultExpression": "the result is not an `AtomicResult`",
    "ResultExpressionExchange": "the result is marked as that of a compare exchange, and the operation compares nothing",
    "ResultExpressionNotExchange": "the operation is a compare exchange, and the result isn't marked as that of one",
    "ResultTypeMismatch": "the result is of another type than the operation returns",
    "MissingReturnValue": "an exchange that compares nothing must have a result",
    "MissingCapability": "the target lacks a capability that the operation needs",
    "ResultAlreadyPopulated": "an earlier call or atomic operation has this result, or the flag EXPRESSIONS is off",
}

SUBGROUPS = {
    "InvalidOperand": "the operation isn't supported on the operand's type",
    "ResultTypeMismatch": "the result is of another kind or type than the operation returns",
    "UnsupportedOperation": "the target doesn't support these subgroup operations",
    "UnknownOperation": "a scan supports only Add and Mul",
    "InvalidInvocationIdExprType": "the index of a broadcast must be a constant",
}

GLOBALS = {
    "InvalidUsage": "a global of this type can't be in this address space",
    "InvalidType": "only images, samplers, acceleration structures and ray queries can be in this address space",
    "InvalidBindingArray": "the type can't be in a binding array",
    "MissingTypeFlags": "the type lacks flags that the address space needs",
    "UnsupportedCapability": "the target lacks a capability that the global needs",
    "InvalidBinding": "a global must have a binding exactly if it is in `Storage`, `Uniform` or `Handle`",
    "Alignment": "the layout of the type isn't valid in this address space, because of this inner type",
    "InitializerExprType": "the initializer must be a constant or an override expression",
    "InitializerType": "the initializer is of another type than the variable",
    "InitializerNotAllowed": "a global in this address space can't have an initializer",
    "StorageAddressSpaceWriteOnlyNotSupported": "a global in `Storage` can't be write-only",
    "InvalidImmediateType": "the type can't be that of an immediate",
    "ZeroSizedTaskPayload": "a task payload has a size of 0 bytes",
    "InvalidMemoryDecorationsAddressSpace": "only a global in `Storage` can have memory decorations",
    "CoherentNotSupported": "the target doesn't support coherent memory",
    "VolatileNotSupported": "the target doesn't support volatile memory",
}

VARYINGS = {
    "InvalidType": "an input or output at a location can't be of this type",
    "NotIOShareableType": "the type can't be shared between stages",
    "InvalidInterpolationInStage": "the interpolation is for this stage only",
    "InvalidInterpolationSamplingCombination": "the interpolation can't be combined with the sampling",
    "InvalidInterpolationForInteger": "an integer must have the interpolation `Flat` here",
    "MissingInterpolation": "a float must have an interpolation here",
    "InvalidBuiltInStage": "the built-in doesn't exist at this stage in this direction",
    "InvalidBuiltInType": "the built-in can't be of this type",
    "MissingBinding": "an argument or a result that is not a struct must have a binding",
    "MemberMissingBinding": "this member of a struct, counted from 0, has no binding",
    "BindingCollision": "two inputs or two outputs have this location",
    "BindingCollisionBlendSrc": "two members have this blend source",
    "DuplicateBuiltIn": "two inputs or two outputs have this built-in",
    "UnsupportedCapability": "the target lacks a capability that the input or output needs",
    "InvalidInputAttributeInStage": "the attribute is for outputs of this stage only",
    "InvalidAttributeInStage": "the attribute is not for this stage",
    "InvalidBlendSrcIndex": "a blend source must be at location 0, and must be 0 or 1",
    "IncompleteBlendSrcUsage": "only one of the two blend sources is there",
    "InvalidBlendSrcWithOtherBindings": "blend sources can't be combined with other locations",
    "BlendSrcOutputTypeMismatch": "the two blend sources are of different types",
    "BlendSrcNotOnStructMember": "a blend source is not on a member of a struct",
    "InvalidMultiDimensionalSubgroupBuiltIn": "the built-in needs a workgroup of one dimension",
    "InvalidPerPrimitive": "only primitive outputs of a mesh and fragment inputs can be per primitive",
    "MissingPerPrimitive": "a primitive output of a mesh must be per primitive",
    "PerVertexNotArrayOfThree": "a per-vertex input must be an array of 3",
    "InvalidPerVertexSampling": "a per-vertex input must have the sampling `Center`, or none",
}

ENTRY_POINTS = {
    "Conflict": "two entry points have one name and stage",
    "MissingVertexOutputPosition": "a vertex entry point, or the vertex output of a mesh, has no position",
    "UnexpectedEarlyDepthTest": "an early depth test is for the fragment stage only",
    "UnexpectedWorkgroupSize": "a stage without workgroups has a workgroup size",
    "OutOfRangeWorkgroupSize": "a dimension of the workgroup size is 0, or more than 16384",
    "ForbiddenStageOperations": "the function, or one that it calls, does what this stage doesn't allow",
    "InvalidGlobalUsage": "a global is used in ways that its address space doesn't allow at this stage",
    "MoreThanOneImmediateUsed": "the entry point uses two globals in `Immediate`",
    "BindingCollision": "the entry point uses an earlier global that has the binding of this one",
    "Argument": "an argument, counted from 0, is invalid",
    "Result": "the result, a mesh output or the early depth test is invalid",
    "Function": "the function is invalid",
    "UnsupportedCapability": "the target lacks a capability that the entry point needs",
    "ExpectedMeshShaderAttributes": "a mesh entry point has no `mesh_info`",
    "UnexpectedMeshShaderAttributes": "only a mesh entry point can have a `mesh_info`",
    "UnexpectedTaskPayload": "an entry point at this stage can't have a task payload",
    "TaskPayloadWrongAddressSpace": "the task payload is not in `TaskPayload`",
    "WrongTaskPayloadUsed": "the entry point uses a global in `TaskPayload` that is not its task payload",
    "WrongTaskShaderEntryResult": "a task entry point must return a vector of three `u32`",
    "ExpectedTaskPayload": "a task entry point has no task payload",
    "BadMeshOutputVariableType": "the `mesh_info` is not what the type of the output variable implies",
    "BadMeshOutputVariableField": "a member of the output variable's type can't be an output of a mesh",
    "UnexpectedMeshShaderEntryResult": "a mesh entry point can't return a value",
    "InvalidMeshOutputType": "an output of a mesh is not a struct",
    "InvalidMeshPrimitiveOutputType": "the primitive output of a mesh must have exactly one built-in of indices",
    "WrongMeshOutputAddressSpace": "the output variable of a mesh is not in `WorkGroup`",
    "TaskPayloadTooSmall": "the task payload has only so many bytes, and must have at least 4",
    "RayPayloadInInvalidStage": "a global in `RayPayload` can't be used at this stage",
    "IncomingRayPayloadInInvalidStage": "a global in `IncomingRayPayload` can't be used at this stage",
}

# Where a fault holds another: the step to it, and whose it is.
INSIDE = {
    "Expression": ("source", EXPRESSIONS), "LocalVariable": ("source", LOCALS), "InvalidImageStore": (None, EXPRESSIONS),
    "InvalidImageAtomic": (None, EXPRESSIONS), "InvalidCall": ("error", CALLS), "InvalidAtomic": (None, ATOMICS),
    "InvalidSubgroup": (None, SUBGROUPS),
}
OF_CALLS = {"Argument": ("source", EXPRESSIONS)}
OF_ENTRY_POINTS = {"Argument": (1, VARYINGS), "Result": (None, VARYINGS), "Function": (None, FUNCTIONS)}
HOLDING = [(FUNCTIONS, INSIDE), (CALLS, OF_CALLS), (ENTRY_POINTS, OF_ENTRY_POINTS)]
TABLES = {
    "function": FUNCTIONS, "expression": EXPRESSIONS, "local": LOCALS, "call": CALLS, "atomic": ATOMICS, "subgroup": SUBGROUPS,
    "global": GLOBALS, "varying": VARYINGS, "entry point": ENTRY_POINTS,
}


def chain(table, fault):
    """The faults from the outside in: each the table that it is of, and its name."""
    name = fault if isinstance(fault, str) else next(iter(fault))
    found = [(table, name)]
    step, inner = next((holding.get(name, (None, None)) for of, holding in HOLDING if of is table), (None, None))
    if inner is not None:
        held = fault[name] if step is None else fault[name][step]
        found += chain(inner, held)
    return found


def chain_of(verdict):
    """That of a verdict that refuses something which fits."""
    refused = verdict["refused"]
    ((kind, _),) = refused["at"].items()
    return chain({"Global": GLOBALS, "Function": FUNCTIONS, "EntryPoint": ENTRY_POINTS}[kind], refused["fault"])


# What is said of an expression that isn't in scope, where it is since a Continue may skip what emits it.
SKIPPED = "a run that takes a Continue comes here without having emitted the expression"


def is_skipped(document, verdict):
    """Whether a Continue is why the expression of a fault isn't in scope."""
    refused = verdict["refused"]
    ((kind, index),) = refused["at"].items()
    if not refused["spans"]:
        return False
    module = document["module"]
    return Walk(module["functions"][index] if kind == "Function" else module["entry_points"][index]["function"]).is_skipped


def told(document, verdict):
    """The sentences of the faults of a verdict, as one line."""
    found = chain_of(verdict)
    lines = [table[name] for table, name in found]
    if found[-1] == (EXPRESSIONS, "NotInScope") and is_skipped(document, verdict):
        lines[-1] = SKIPPED
    return ": ".join(lines)


def missing(met):
    """What is in no chain of these: each as its table and its name."""
    return [f"{title} {name}" for title, table in TABLES.items() for name in table if (id(table), name) not in met]


# The faults that are never made (docs/MODULES.md), and so shown by no document.
NEVER_MADE = [
    "global InvalidBindingArray", "varying BindingCollisionBlendSrc", "varying InvalidBlendSrcIndex",
    "varying IncompleteBlendSrcUsage", "varying InvalidBlendSrcWithOtherBindings", "varying BlendSrcOutputTypeMismatch",
    "entry point Conflict",
]
