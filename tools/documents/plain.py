"""What the plain layer says of a module, as facts. It types the plainest expressions and refuses any other, lets every
expression run in all stages, has a global read where an expression names it, and knows the sizes of plain types."""

from form import BOOLEAN, STAGES, UINT

COUNTS = {"Bi": 2, "Tri": 3, "Quad": 4}
MOST_U32 = 4294967295


def tag_of(value):
    """The name of a variant, and what it holds."""
    if isinstance(value, str):
        return value, None
    (name, held), = value.items()
    return name, held


def size_of(inner):
    """The size of a type in bytes, where it is known and fits 32 bits."""
    name, held = tag_of(inner)
    if name in ("Scalar", "Atomic"):
        return held["width"]
    if name == "Vector":
        return COUNTS[held["size"]] * held["scalar"]["width"]
    if name == "Struct":
        return held["span"]
    if name == "Array" and isinstance(held["size"], dict) and "Constant" in held["size"]:
        size = held["size"]["Constant"] * held["stride"]
        return size if size <= MOST_U32 else None
    return None


def type_at(module, ty):
    """The type with a handle, where the module has it."""
    return {"Handle": ty} if ty < len(module["types"]) else None


def pointer_to(module, base, space):
    if base >= len(module["types"]):
        return None
    return {"Value": {"Pointer": {"base": base, "space": space}}}


def at_index(things, index):
    return things[index] if index < len(things) else None


def global_type(module, index):
    """What a global stands for: itself in Handle, elsewhere a pointer to it."""
    var = at_index(module["global_variables"], index)
    if var is None:
        return None
    if var["space"] == "Handle":
        return type_at(module, var["ty"])
    return pointer_to(module, var["ty"], var["space"])


def loaded_type(module, found):
    """The type that a pointer points to."""
    if found is None:
        return None
    name, held = tag_of(found)
    inner = module["types"][held]["inner"] if name == "Handle" else held
    name, held = tag_of(inner)
    if name == "Pointer":
        return type_at(module, held["base"])
    if name == "ValuePointer":
        base = {"Scalar": held["scalar"]}
        if held["size"] is not None:
            base = {"Vector": {"size": held["size"], "scalar": held["scalar"]}}
        return {"Value": base}
    return None


def declared_type(module, things, index):
    """The type that the thing with an index is declared with."""
    thing = at_index(things, index)
    return None if thing is None else type_at(module, thing["ty"])


def own_type(module, function, expression):
    """The type of an expression that has one by itself."""
    name, held = tag_of(expression)
    if name == "Literal":
        return {"Value": {"Scalar": held["scalar"]}}
    if name == "ZeroValue":
        return type_at(module, held)
    if name in ("Compose", "AtomicResult", "WorkGroupUniformLoadResult", "SubgroupOperationResult"):
        return type_at(module, held["ty"])
    if name in ("Constant", "Override"):
        return declared_type(module, module[name.lower() + "s"], held)
    if name == "FunctionArgument":
        return declared_type(module, function["arguments"], held)
    if name == "GlobalVariable":
        return global_type(module, held)
    if name == "LocalVariable":
        local = at_index(function["local_variables"], held)
        return None if local is None else pointer_to(module, local["ty"], "Function")
    if name == "CallResult":
        callee = at_index(module["functions"], held)
        declared = callee and callee["result"]
        return type_at(module, declared["ty"]) if declared else None
    if name == "RayQueryProceedResult":
        return {"Value": {"Scalar": BOOLEAN}}
    if name == "SubgroupBallotResult":
        return {"Value": {"Vector": {"size": "Quad", "scalar": UINT}}}
    return None


def type_of(module, function, earlier, expression):
    """The type of an expression, of those of the expressions before it."""
    name, held = tag_of(expression)
    if name == "Load":
        return loaded_type(module, at_index(earlier, held["pointer"]))
    if name == "Unary":
        return at_index(earlier, held["operands"][0]) if held["operands"] else None
    return own_type(module, function, expression)


def uses_of(module, function):
    """One use for each global: that it is read, where an expression names it."""
    named = [tag_of(expression) for expression in function["expressions"]]
    return [["READ"] if ("GlobalVariable", index) in named else [] for index in range(len(module["global_variables"]))]


def function_fact(module, function):
    """What is said of a function: its info, or that an expression of it has no type here."""
    types = []
    for handle, expression in enumerate(function["expressions"]):
        ty = type_of(module, function, types, expression)
        if ty is None:
            return {"error": {"Expression": {"handle": handle, "source": {"Lower": 1}}}}
        types.append(ty)
    return info_fact(types, uses_of(module, function))


def info_fact(types, uses, stages=STAGES, expressions=None):
    """An info, whose expressions all run in all stages unless something else is said of them."""
    if expressions is None:
        expressions = [{"stages": STAGES}] * len(types)
    return {"info": {
        "types": types, "uses": uses, "stages": stages, "dual_source_blending": False, "expressions": expressions,
    }}
