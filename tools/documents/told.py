"""What people read of some rows: the sentence of a misfit, and how the fields of a fault are written. The sentences of faults are in
sentences.py."""

import unfit

MISFITS = unfit.sentences()

# Of some rows the line with the fault and its fields, and the sentence.
RETURN = "the returned value doesn't match the declared return type, or only one of them is there"
FIELDS = {
    "program 73": (
        "function 0: InvalidStoreTypes { pointer: [4], value: [2] }",
        "the stored value is not of the type that the pointer points to",
    ),
    "subgroups 11": (
        "function 0: MissingCapability(Capabilities(SUBGROUP | SUBGROUP_BARRIER))",
        "the target lacks a capability that a statement needs",
    ),
    "unshown 34": (
        "function 0: InvalidPayloadAddressSpace(Private)",
        "the payload of a ray is in this address space, which is not for ray payloads",
    ),
    "unshown 21": (
        "function 0: InvalidStoreTexture { actual: [0], actual_ty: Sampler { comparison: false } }",
        "the stored value is an image or a sampler",
    ),
    "plain 2": ("function 0: InvalidReturnType { expression: Some([0]), expected_ty: Some([2]) }", RETURN),
    "program 44": ("function 0: InvalidReturnType { expression: Some([1]), expected_ty: None }", RETURN),
    "declarations 8": (
        'function 0: LocalVariable { handle: [0], name: "color", source: InitializerType }',
        "a local variable is invalid: the initializer is of another type than the variable",
    ),
    "fault table 3": (
        "function 1: InvalidCall { function: [0], error: Argument { index: 1, source: NotInScope } }",
        "a call of this function is invalid: an argument is invalid: the expression is not in scope where it is used",
    ),
}
