"""What doesn't fit in a document with facts: the first misfit in the order of docs/CHECKS.md, as docs/MODULES.md has its JSON, and
the pointer to it. By the rules, and not by what the program answers."""

import places


def misfit_of(document):
    """The misfit and its pointer; None where everything fits."""
    return next(module_misfits(document["module"], document["facts"]), None)


def misfit(place, problem, pointer):
    return {"place": place, "problem": problem}, pointer


def named(place, of, below, handle, pointer):
    """A handle has to lie below this, if there is one."""
    if handle is not None and handle >= below:
        yield misfit(place, {"Handle": {"of": of, "index": handle, "below": below}}, pointer)


def length(place, listed, wanted, pointer):
    if len(listed) != wanted:
        yield misfit(place, {"Length": {"found": len(listed), "wanted": wanted}}, pointer)


def module_misfits(module, facts):
    types, functions = module["types"], module["functions"]
    yield from length("TypeInfos", facts["type_infos"], len(types), "/facts/type_infos")
    for at, info in enumerate(facts["type_infos"]):
        for field, place in (("storage_layout", "StorageLayout"), ("uniform_layout", "UniformLayout")):
            bad = info[field].get("Err", [None])[0]
            yield from named({place: at}, "Types", len(types), bad, f"/facts/type_infos/{at}/{field}")
    yield from type_misfits(module)
    yield from global_misfits(module, facts["global_types"])
    for at, function in enumerate(functions):
        yield from function_misfits(module, {"Function": at}, f"/module/functions/{at}", function, at)
    for at, own in enumerate(module["global_variables"]):
        sized = own["ty"] < len(facts["sizes"]) and facts["sizes"][own["ty"]] is not None
        if own["space"] == "TaskPayload" and not sized:
            yield misfit({"InGlobal": [at, "Ty"]}, {"UnknownSize": {"ty": own["ty"]}}, f"/module/global_variables/{at}")
    for at, ep in enumerate(module["entry_points"]):
        base = f"/module/entry_points/{at}"
        yield from function_misfits(module, {"EntryPoint": at}, f"{base}/function", ep["function"], len(functions))
        yield from entry_misfits(module, at, base, ep)


# Types and globals.

def inner_misfits(owner, below, inner, pointer, held):
    """What a type names. `held` leads from the type to what it holds."""
    ((kind, fields),) = inner.items()
    if kind in ("Pointer", "Array", "BindingArray"):
        yield from named({"InType": [owner, "Base"]}, "Types", below, fields["base"], pointer)
    if kind == "Struct":
        for at, member in enumerate(fields["members"]):
            place = {"InType": [owner, {"Member": at}]}
            yield from named(place, "Types", below, member["ty"], f"{pointer}/{held}/Struct/members/{at}")


def type_misfits(module):
    types = module["types"]
    for at, ty in enumerate(types):
        yield from inner_misfits({"OfModule": at}, at, ty["inner"], f"/module/types/{at}", "inner")
    ray_desc = module["special_types"]["ray_desc"]
    yield from named("RayDesc", "Types", len(types), ray_desc, "/module/special_types/ray_desc")
    for listed, place in (("constants", "ConstantType"), ("overrides", "OverrideType")):
        for at, own in enumerate(module[listed]):
            yield from named({place: at}, "Types", len(types), own["ty"], f"/module/{listed}/{at}")


def is_unbindable_array(types, ty):
    array = types[ty]["inner"].get("BindingArray")
    if array is None or array["base"] >= len(types):
        return False
    base = types[array["base"]]["inner"]
    return "RayQuery" in base or base.get("Image", {}).get("class") == "External"


def global_misfits(module, global_types):
    types, expressions = module["types"], module["global_expressions"]
    for at, own in enumerate(module["global_variables"]):
        pointer = f"/module/global_variables/{at}"
        yield from named({"InGlobal": [at, "Ty"]}, "Types", len(types), own["ty"], pointer)
        yield from named({"InGlobal": [at, "Init"]}, "GlobalExpressions", len(expressions), own["init"], pointer)
        if own["space"] == "Handle" and is_unbindable_array(types, own["ty"]):
            yield misfit({"InGlobal": [at, "Ty"]}, "Unbindable", pointer)
    yield from length("GlobalTypes", global_types, len(expressions), "/facts/global_types")
    for at, resolution in enumerate(global_types):
        owner, pointer = {"OfGlobalExpression": at}, f"/facts/global_types/{at}"
        yield from named({"InType": [owner, "Whole"]}, "Types", len(types), resolution.get("Handle"), pointer)
        if "Value" in resolution:
            yield from inner_misfits(owner, len(types), resolution["Value"], pointer, "Value")
    yield from operand_misfits("Module", "GlobalExpressions", expressions, "/module/global_expressions")


# Functions.

def operand_misfits(owner, of, expressions, pointer):
    for at, expression in enumerate(expressions):
        for index, operand in enumerate(places.operands_of(expression)):
            yield from named({"Operand": [owner, at, index]}, of, at, operand, f"{pointer}/{at}")


def signature_misfits(module, owner, pointer, function):
    below = len(module["types"])
    for at, argument in enumerate(function["arguments"]):
        yield from named({"ArgumentType": [owner, at]}, "Types", below, argument["ty"], f"{pointer}/arguments/{at}")
    if function["result"] is not None:
        yield from named({"ResultType": owner}, "Types", below, function["result"]["ty"], f"{pointer}/result")


def callee_misfits(module, place, handle, pointer):
    functions = module["functions"]
    yield from named(place, "Functions", len(functions), handle, pointer)
    if handle < len(functions):
        yield from signature_misfits(module, {"Function": handle}, f"/module/functions/{handle}", functions[handle])


# Of expressions that name something besides operands: what, and by which field, if not by themselves.
REFERENCES = {
    "Constant": ("Constants", None), "Override": ("Overrides", None), "ZeroValue": ("Types", None), "Compose": ("Types", "ty"),
    "GlobalVariable": ("GlobalVariables", None), "LocalVariable": ("LocalVariables", None), "AtomicResult": ("Types", "ty"),
    "WorkGroupUniformLoadResult": ("Types", "ty"), "SubgroupOperationResult": ("Types", "ty"),
}


def reference_misfits(module, owner, pointer, function):
    listed = {
        "Constants": module["constants"], "Overrides": module["overrides"], "Types": module["types"],
        "GlobalVariables": module["global_variables"], "LocalVariables": function["local_variables"],
    }
    for at, expression in enumerate(function["expressions"]):
        place, own = {"Reference": [owner, at]}, f"{pointer}/expressions/{at}"
        name, held = places.name_of(expression), None if isinstance(expression, str) else next(iter(expression.values()))
        if name == "CallResult":
            yield from callee_misfits(module, place, held, own)
        elif name in REFERENCES:
            of, field = REFERENCES[name]
            yield from named(place, of, len(listed[of]), held if field is None else held[field], own)


def function_misfits(module, owner, pointer, function, earlier):
    expressions = function["expressions"]
    yield from signature_misfits(module, owner, pointer, function)
    for at, local in enumerate(function["local_variables"]):
        own = f"{pointer}/local_variables/{at}"
        yield from named({"InLocal": [owner, at, "Ty"]}, "Types", len(module["types"]), local["ty"], own)
        yield from named({"InLocal": [owner, at, "Init"]}, "Expressions", len(expressions), local["init"], own)
    yield from operand_misfits(owner, "Expressions", expressions, f"{pointer}/expressions")
    yield from reference_misfits(module, owner, pointer, function)
    yield from Body(module, owner, len(expressions), earlier).misfits(function["body"], f"{pointer}/body")


def fields_of(name, held):
    """What a statement names, in order, each with the name of its field."""
    if name == "If":
        return [("Condition", held["condition"])]
    if name == "Switch":
        return [("Selector", held["selector"])]
    if name == "Return":
        return [("Value", held["value"])]
    if name == "Store":
        return [("Pointer", held["pointer"]), ("Value", held["value"])]
    if name in ("ImageStore", "ImageAtomic"):
        image = [("Image", held["image"]), ("Coordinate", held["coordinate"]), ("ArrayIndex", held["array_index"])]
        return image + compared(held) + [("Value", held["value"])]
    if name == "Atomic":
        return [("Pointer", held["pointer"])] + compared(held) + [("Value", held["value"]), ("Result", held["result"])]
    if name == "WorkGroupUniformLoad":
        return [("Pointer", held["pointer"]), ("Result", held["result"])]
    if name == "RayQuery":
        fun = next(iter(held["fun"].values())) if isinstance(held["fun"], dict) else {}
        steps = {"acceleration_structure": "AccelerationStructure", "descriptor": "Descriptor", "result": "Result", "hit_t": "HitT"}
        return [("Query", held["query"])] + [(steps[field], handle) for field, handle in fun.items()]
    if name == "SubgroupBallot":
        return [("Result", held["result"]), ("Predicate", held["predicate"])]
    if name == "SubgroupCollectiveOperation":
        return [("Argument", held["argument"]), ("Result", held["result"])]
    if name == "SubgroupGather":
        mode = held["mode"]
        index = [("Mode", next(iter(mode.values())))] if isinstance(mode, dict) and "QuadSwap" not in mode else []
        return index + [("Argument", held["argument"]), ("Result", held["result"])]
    if name == "CooperativeStore":
        return [("Target", held["target"]), ("Source", held["source"]["pointer"])]
    if name == "RayPipelineFunction":
        trace = held["TraceRay"]
        return [
            ("AccelerationStructure", trace["acceleration_structure"]), ("Descriptor", trace["descriptor"]), ("Payload", trace["payload"]),
        ]
    return []


def compared(held):
    return [("Compare", held["fun"]["Exchange"]["compare"])] if isinstance(held.get("fun"), dict) else []


class Body:
    """The misfits of a body, whose statements are numbered in the order of visits."""

    def __init__(self, module, owner, count, earlier):
        self.module, self.owner, self.count, self.earlier, self.number = module, owner, count, earlier, 0

    def place(self, number, field):
        return {"InStatement": [self.owner, number, field]}

    def names(self, number, field, handle, pointer):
        yield from named(self.place(number, field), "Expressions", self.count, handle, pointer)

    def misfits(self, listed, pointer):
        for statement, own, inner in places.items(listed, pointer):
            number, self.number = self.number, self.number + 1
            yield from self.statement(number, statement, own)
            for below, at, _ in places.lists(statement, inner):
                yield from self.misfits(below, at)
            if places.name_of(statement) == "Loop":
                yield from self.names(number, "BreakIf", statement["Loop"]["break_if"], f"{inner}/Loop/break_if")

    def statement(self, number, statement, own):
        name, held = places.name_of(statement), None if isinstance(statement, str) else next(iter(statement.values()))
        if name == "Emit":
            start, end, place = held["start"], held["end"], self.place(number, "Range")
            if start > end:
                yield misfit(place, {"Backwards": {"start": start, "end": end}}, own)
            if end > self.count:
                yield misfit(place, {"PastEnd": {"end": end, "count": self.count}}, own)
        if name == "Call":
            place = self.place(number, "Function")
            yield from named(place, "Functions", self.earlier, held["function"], own)
            yield from callee_misfits(self.module, place, held["function"], own)
            for at, argument in enumerate(held["arguments"]):
                yield from self.names(number, {"CallArgument": at}, argument, own)
            yield from self.names(number, "Result", held["result"], own)
        for field, handle in fields_of(name, held):
            yield from self.names(number, field, handle, own)


# Entry points.

def entry_misfits(module, at, base, ep):
    globals_, expressions, types = (len(module[it]) for it in ("global_variables", "global_expressions", "types"))
    place = lambda field: {"InEntryPoint": [at, field]}
    yield from named(place("TaskPayload"), "GlobalVariables", globals_, ep["task_payload"], f"{base}/task_payload")
    for field, name, of, below in (
        ("max_vertices_override", "MaxVerticesOverride", "GlobalExpressions", expressions),
        ("max_primitives_override", "MaxPrimitivesOverride", "GlobalExpressions", expressions),
        ("vertex_output_type", "VertexOutputType", "Types", types),
        ("primitive_output_type", "PrimitiveOutputType", "Types", types),
        ("output_variable", "OutputVariable", "GlobalVariables", globals_),
    ):
        if ep["mesh_info"] is not None:
            yield from named(place(name), of, below, ep["mesh_info"][field], f"{base}/mesh_info/{field}")
    for index, own in enumerate(module["global_variables"]):
        if own["space"] == "Function":
            yield misfit({"InGlobal": [index, "Space"]}, "InFunctionSpace", f"/module/global_variables/{index}")
