"""Where what a verdict refuses stands in its document, as a JSON pointer: by the rules, and not by what the program answers.

A document needs no spans for it. Of a fault in a body the statement is the first that can have it: for what isn't in scope, or is
so already, by what each statement uses and emits; for a jump by where it stands; for all others by kind and handles. Of NotFit it
is where the first misfit stands.
"""

import json

import misfits

PRE_EMITTED = ("Literal", "Constant", "Override", "ZeroValue", "FunctionArgument", "GlobalVariable", "LocalVariable")


def place_of(document, verdict):
    """The pointer to what has the fault. None where nothing is refused."""
    refused = verdict.get("refused") if isinstance(verdict, dict) else None
    if refused is None:
        return None
    if refused["at"] == "NotFit":
        return misfits.misfit_of(document)[1]
    ((kind, index),) = refused["at"].items()
    module, facts, fault = document["module"], document["facts"] or {"functions": None, "entry_points": None}, refused["fault"]
    refused = {**refused, "flags": document["flags"]}
    if kind == "Global":
        return f"/module/global_variables/{index}"
    if kind == "Function":
        return in_function(module, facts["functions"], "functions", index, module["functions"][index], "", refused)
    ep = module["entry_points"][index]
    if isinstance(fault, dict) and "Function" in fault:
        inner = {**refused, "fault": fault["Function"]}
        return in_function(module, facts["entry_points"], "entry_points", index, ep["function"], "/function", inner)
    return in_entry(module, f"/module/entry_points/{index}", ep, fault)


def told(line, verdict):
    """The verdict of a line as it is written: of a refusal with its place, and of NotFit with what doesn't fit as its fault."""
    refused = verdict.get("refused") if isinstance(verdict, dict) else None
    if refused is None:
        return verdict
    document = json.loads(line)
    fault = misfits.misfit_of(document)[0] if refused["at"] == "NotFit" else refused["fault"]
    return {**verdict, "refused": {**refused, "fault": fault, "place": place_of(document, verdict)}}


# Functions.

def name_of(fault):
    return fault if isinstance(fault, str) else next(iter(fault))


def in_function(module, facts, listed, index, function, step, refused):
    base, fault, name = f"/module/{listed}/{index}{step}", refused["fault"], name_of(refused["fault"])
    held = fault[name] if isinstance(fault, dict) else None
    if refused["spans"]:
        found = statement_of(module, function, fault, refused["flags"])
        assert found, fault
        return f"{base}/body{found}"
    if name == "Expression" and held["source"] == {"Lower": 0} and facts is not None:
        gap = gap_of(module, facts, index, function, held["handle"])
        if gap is not None:
            return f"/facts/{listed}{gap}"
    if name == "LocalVariable":
        return f"{base}/local_variables/{held['handle']}"
    if name in ("InvalidArgumentType", "InvalidArgumentPointerSpace"):
        return f"{base}/arguments/{held['index']}"
    if name == "PipelineInputRegularFunction":
        return f"{base}/arguments/{next(at for at, it in enumerate(function['arguments']) if it['binding'] is not None)}"
    if name in ("NonConstructibleReturnType", "PipelineOutputRegularFunction"):
        return f"{base}/result"
    if name == "NonUniformWorkgroupUniformLoad":
        return base.removesuffix("/function")
    handle = held["handle"] if name == "Expression" else held[1] if isinstance(held, list) else held
    return f"{base}/expressions/{handle}" if handle < len(function["expressions"]) else base.removesuffix("/function")


def gap_of(module, facts, index, function, handle):
    """What of the facts about a function is short or can't be used."""
    if index >= len(facts):
        return ""
    info = facts[index].get("info")
    if info is None:
        return None
    if len(info["types"]) != len(function["expressions"]):
        return f"/{index}/info/types"
    if len(info["uses"]) != len(module["global_variables"]):
        return f"/{index}/info/uses"
    for at, resolution in enumerate(info["types"]):
        if not can_be_used(resolution, len(module["types"])):
            return f"/{index}/info/types/{at}"
    return f"/{index}/info/expressions" if len(info["expressions"]) <= handle else None


def can_be_used(resolution, count):
    ((kind, held),) = resolution.items()
    if kind == "Handle":
        return held < count
    if isinstance(held, dict) and "Struct" in held:
        return False
    inner = next(iter(held.values()))
    return not (isinstance(inner, dict) and "base" in inner) or inner["base"] < count


# Statements.

def items(listed, pointer):
    """The statements of a list, each with its pointer and that of what it holds."""
    for at, item in enumerate(listed):
        own, statement = f"{pointer}/{at}", item
        if isinstance(item, dict) and "span" in item:
            statement = item["statement"]
            yield statement, own, own + ("/statement" if item["span"] != [0, 0] else "")
        else:
            yield statement, own, own


def lists(statement, pointer):
    """The lists of a statement, each with its pointer and whether it is a case, a Loop's body or its continuing part."""
    name, held = name_of(statement), statement if isinstance(statement, str) else next(iter(statement.values()))
    if name == "Block":
        yield held, f"{pointer}/Block", "block"
    elif name == "If":
        yield held["accept"], f"{pointer}/If/accept", "block"
        yield held["reject"], f"{pointer}/If/reject", "block"
    elif name == "Switch":
        for at, case in enumerate(held["cases"]):
            yield case["body"], f"{pointer}/Switch/cases/{at}/body", "case"
    elif name == "Loop":
        yield held["body"], f"{pointer}/Loop/body", "body"
        yield held["continuing"], f"{pointer}/Loop/continuing", "continuing"


def holds_continue(statement):
    """Whether a statement holds a Continue for the Loop in whose body list it stands."""
    if statement == "Continue":
        return True
    if name_of(statement) == "Loop":
        return False
    return any(holds_continue(inner) for listed, _, _ in lists(statement, "") for inner, _, _ in items(listed, ""))


def uses_of(name, held):
    """The expressions that a statement uses, in order; an Emit apart."""
    if name == "If":
        return [held["condition"]]
    if name == "Switch":
        return [held["selector"]]
    if name in ("Return", "Store"):
        return [held["value"]]
    if name in ("ImageStore", "ImageAtomic"):
        return [held["coordinate"], held["array_index"], held["value"]]
    if name == "Call":
        return held["arguments"]
    if name == "Atomic":
        compare = held["fun"].get("Exchange", {}).get("compare") if isinstance(held["fun"], dict) else None
        return [held["pointer"], held["value"], None if held["result"] is None else compare]
    if name == "WorkGroupUniformLoad":
        return [held["pointer"]]
    if name == "RayQuery" and isinstance(held["fun"], dict):
        ((_, fun),) = held["fun"].items()
        return [fun.get("acceleration_structure"), fun.get("descriptor"), fun.get("hit_t")]
    if name == "SubgroupBallot":
        return [held["predicate"]]
    if name == "SubgroupCollectiveOperation":
        return [held["argument"]]
    if name == "SubgroupGather":
        mode = held["mode"]
        at = next(iter(mode.values())) if isinstance(mode, dict) and "QuadSwap" not in mode else None
        return [at, held["argument"]]
    if name == "CooperativeStore":
        return [held["target"]]
    if name == "RayPipelineFunction":
        trace = held["TraceRay"]
        return [trace["acceleration_structure"], trace["descriptor"], trace["payload"]]
    return []


def emitted_by(name, held):
    if name == "RayQuery":
        fun = held["fun"]
        return [fun["Proceed"]["result"]] if isinstance(fun, dict) and "Proceed" in fun else []
    if isinstance(held, dict) and held.get("result") is not None and name != "Return":
        return [held["result"]]
    return []


# The operands of the forms with names, but for those that are no fields.
NAMED = {
    "Access": ["base", "index"], "AccessIndex": ["base"], "Load": ["pointer"], "Splat": ["value"], "Swizzle": ["vector"],
    "Unary": ["expr"], "Binary": ["left", "right"], "Select": ["condition", "accept", "reject"], "Derivative": ["expr"],
    "Relational": ["argument"], "Math": ["arg", "arg1", "arg2", "arg3"], "As": ["expr"],
    "ImageSample": ["image", "sampler", "coordinate", "array_index", "offset", "depth_ref"],
    "ImageLoad": ["image", "coordinate", "array_index", "sample", "level"], "ImageQuery": ["image"],
    "RayQueryGetIntersection": ["query"], "RayQueryVertexPositions": ["query"], "CooperativeMultiplyAdd": ["a", "b", "c"],
}


def operands_of(expression):
    """The operands of an expression, in a form with names or without."""
    name, held = name_of(expression), None if isinstance(expression, str) else next(iter(expression.values()))
    if name == "ArrayLength" and not isinstance(held, dict):
        return [held]
    if not isinstance(held, dict):
        return []
    if name == "Compose":
        return held["components"]
    if "operands" in held:
        return held["operands"]
    found = [held[field] for field in NAMED.get(name, [])]
    if name == "ImageSample" and isinstance(held["level"], dict):
        level = next(iter(held["level"].values()))
        found += [level["x"], level["y"]] if isinstance(level, dict) else [level]
    if name == "ImageQuery" and isinstance(held["query"], dict):
        found.append(held["query"]["Size"]["level"])
    if name == "CooperativeLoad":
        found += [held["data"]["pointer"], held["data"]["stride"]]
    return [operand for operand in found if operand is not None]


class Walk:
    """What the statements of a function use and emit, in the order of visits."""

    def __init__(self, function):
        self.function = function
        self.events = []
        # Whether the first that is unseen is in scope, and a run that takes a Continue comes there without it.
        self.is_skipped = False
        known = {at for at, it in enumerate(function["expressions"]) if name_of(it) in PRE_EMITTED}
        self.list(function["body"], "", set(known), set(known))

    def use(self, pointer, handle, scope, sure):
        if handle is not None and handle not in sure:
            if all(kind != "unseen" for _, kind, _ in self.events):
                self.is_skipped = handle in scope
            self.events.append((pointer, "unseen", handle))

    def put(self, pointer, handle, scope, sure):
        if handle in scope:
            self.events.append((pointer, "again", handle))
        scope.add(handle)
        sure.add(handle)

    def list(self, listed, pointer, scope, sure):
        """A list whose emissions stay in the two sets. Answers what was sure before the first statement that holds a Continue."""
        before = None
        for statement, own, inner in items(listed, pointer):
            if before is None and holds_continue(statement):
                before = set(sure)
            self.statement(statement, own, inner, scope, sure)
        return before

    def statement(self, statement, own, inner, scope, sure):
        name, held = name_of(statement), statement if isinstance(statement, str) else next(iter(statement.values()))
        if name == "Emit":
            for handle in range(held["start"], held["end"]):
                for operand in operands_of(self.function["expressions"][handle]):
                    self.use(own, operand, scope, sure)
                self.put(own, handle, scope, sure)
        for handle in uses_of(name, held):
            self.use(own, handle, scope, sure)
        for handle in emitted_by(name, held):
            self.put(own, handle, scope, sure)
        if name != "Loop":
            for listed, pointer, _ in lists(statement, inner):
                self.list(listed, pointer, set(scope), set(sure))
            return
        (body, at, _), (continuing, behind, _) = lists(statement, inner)
        scope, sure = set(scope), set(sure)
        before = self.list(body, at, scope, sure)
        sure = sure if before is None else before
        self.list(continuing, behind, scope, sure)
        self.use(f"{inner}/Loop/break_if", held["break_if"], scope, sure)


# Which statements can have a fault, by its name.
KINDS = {
    "InvalidReturnType": ["Return"], "InvalidIfType": ["If", "Loop"], "InvalidSwitchType": ["Switch"],
    "ConflictingSwitchCase": ["Switch"], "ConflictingCaseType": ["Switch"], "MissingDefaultCase": ["Switch"],
    "MultipleDefaultCases": ["Switch"], "LastCaseFallTrough": ["Switch"], "InvalidStorePointer": ["Store"],
    "InvalidStoreTexture": ["Store"], "InvalidStoreTypes": ["Store"], "InvalidStoreValue": ["ImageStore"],
    "InvalidImageStore": ["ImageStore"], "InvalidImageAtomic": ["ImageAtomic"], "InvalidImageAtomicFunction": ["ImageAtomic"],
    "InvalidImageAtomicValue": ["ImageAtomic"], "InvalidCall": ["Call"], "InvalidAtomic": ["Atomic"],
    "InvalidRayQueryExpression": ["RayQuery"], "InvalidAccelerationStructure": ["RayQuery", "RayPipelineFunction"],
    "MissingAccelerationStructureVertexReturn": ["RayQuery"], "InvalidRayDescriptor": ["RayQuery", "RayPipelineFunction"],
    "InvalidRayQueryType": ["RayQuery"], "InvalidHitDistanceType": ["RayQuery"],
    "WorkgroupUniformLoadExpressionMismatch": ["WorkGroupUniformLoad"], "WorkgroupUniformLoadInvalidPointer": ["WorkGroupUniformLoad"],
    "InvalidCooperativeStoreTarget": ["CooperativeStore"], "InvalidCooperativeDataPointer": ["CooperativeStore"],
    "EmitResult": ["Emit"], "InvalidPayloadType": ["RayPipelineFunction"], "InvalidPayloadAddressSpace": ["RayPipelineFunction"],
    "PayloadPointerNotGlobal": ["RayPipelineFunction"],
    "InvalidSubgroup": ["SubgroupBallot", "SubgroupCollectiveOperation", "SubgroupGather", "ControlBarrier", "MemoryBarrier"],
    "MissingCapability": ["ControlBarrier", "MemoryBarrier", "ImageAtomic", "SubgroupBallot", "SubgroupCollectiveOperation",
                          "SubgroupGather"],
}


def all_statements(listed, pointer, allowed):
    """All statements in the order of visits, with their pointers, those of their break conditions, and the jumps that are allowed."""
    for statement, own, inner in items(listed, pointer):
        yield statement, own, inner, allowed
        for below, at, part in lists(statement, inner):
            inside = {"block": allowed, "case": allowed | {"Break"}, "body": allowed | {"Break", "Continue"}, "continuing": set()}
            yield from all_statements(below, at, inside[part])


def statement_of(module, function, fault, flags):
    """The pointer, from the body on, to the first statement that can have a fault. A result is filled already where a second one
    names it; without EXPRESSIONS from the first on."""
    name = name_of(fault)
    held = fault[name] if isinstance(fault, dict) else None
    error = held["error"] if name == "InvalidCall" else None
    if name == "Expression" or isinstance(error, dict) and "Argument" in error:
        return next(at for at, kind, _ in Walk(function).events if kind == "unseen")
    if name == "ExpressionAlreadyInScope" or isinstance(error, dict) and "ResultAlreadyInScope" in error:
        return next(at for at, kind, _ in Walk(function).events if kind == "again")
    jump = {"BreakOutsideOfLoopOrSwitch": "Break", "ContinueOutsideOfLoop": "Continue", "InvalidReturnSpot": "Return"}.get(name)
    found = []
    for statement, own, inner, allowed in all_statements(function["body"], "", {"Return"}):
        if jump is not None:
            if name_of(statement) == jump and jump not in allowed:
                found.append(own)
        elif name == "MismatchedPayloadType":
            if name_of(statement) == "RayPipelineFunction" and payload_type(module, function, statement) == held[0]:
                found.append(own)
        elif name_of(statement) in KINDS[name] and can_have(statement, name, held, error):
            found.append(f"{inner}/Loop/break_if" if name_of(statement) == "Loop" else own)
    if isinstance(error, dict) and "ResultAlreadyPopulated" in error or name == "InvalidAtomic" and "ResultAlreadyPopulated" in held:
        return found[-1 if "EXPRESSIONS" in flags else 0]
    return found[0]


def payload_type(module, function, statement):
    """The type of the global that is the payload of a ray."""
    payload = function["expressions"][statement["RayPipelineFunction"]["TraceRay"]["payload"]]
    return module["global_variables"][payload["GlobalVariable"]]["ty"]


def can_have(statement, name, held, error):
    """Whether a statement of the right kind names what the fault names."""
    ((kind, own),) = statement.items()
    if name == "InvalidReturnType":
        return own["value"] == held["expression"]
    if name == "InvalidIfType":
        return held in (own.get("condition"), own.get("break_if"))
    if name == "InvalidSwitchType":
        return own["selector"] == held
    if kind == "Switch":
        values = [case["value"] for case in own["cases"]]
        return {
            "ConflictingSwitchCase": values.count(held) > 1, "ConflictingCaseType": True,
            "MissingDefaultCase": "Default" not in values, "MultipleDefaultCases": values.count("Default") > 1,
            "LastCaseFallTrough": bool(own["cases"]) and own["cases"][-1]["fall_through"],
        }[name]
    if name == "InvalidStoreTypes":
        return [own["pointer"], own["value"]] == [held["pointer"], held["value"]]
    if name == "InvalidStorePointer":
        return own["pointer"] == held
    if name == "InvalidStoreValue":
        return own["value"] == held["actual"]
    if name == "InvalidAtomic" and isinstance(held, dict) and "InvalidPointer" in held:
        return own["pointer"] == held["InvalidPointer"]
    if name == "InvalidSubgroup" and isinstance(held, dict) and "ResultTypeMismatch" in held:
        return isinstance(own, dict) and own["result"] == held["ResultTypeMismatch"]
    if name == "EmitResult":
        return own["start"] <= held < own["end"]
    if isinstance(error, dict) and "ResultAlreadyPopulated" in error:
        return own["result"] == error["ResultAlreadyPopulated"]
    if name == "InvalidCall" and own["function"] != held["function"]:
        return False
    if isinstance(error, dict) and "ArgumentCount" in error:
        return len(own["arguments"]) == error["ArgumentCount"]["seen"]
    if isinstance(error, dict) and "ArgumentType" in error:
        return own["arguments"][error["ArgumentType"]["index"]] == error["ArgumentType"]["seen_expression"]
    return True


# Entry points.

def in_entry(module, base, ep, fault):
    name = name_of(fault)
    held = fault[name] if isinstance(fault, dict) else None
    if name == "Argument":
        index, error = held
        argument = ep["function"]["arguments"][index]
        group = [it for at, own in enumerate(ep["function"]["arguments"][: index + 1])
                 for it in bound(module, f"{base}/function/arguments/{at}", own)]
        checked = bound(module, f"{base}/function/arguments/{index}", argument)
        return in_bound(f"{base}/function/arguments/{index}", argument["ty"], group, checked, error)
    if name == "Result":
        return in_result(module, base, ep, held)
    if name in ("InvalidGlobalUsage", "BindingCollision"):
        return f"/module/global_variables/{held[0] if isinstance(held, list) else held}"
    if name == "MissingVertexOutputPosition":
        return f"{base}/mesh_info/vertex_output_type" if ep["stage"] == "Mesh" else f"{base}/function/result"
    if name == "UnsupportedCapability":
        return f"{base}/{'mesh_info/topology' if held == ['MESH_SHADER_POINT_TOPOLOGY'] else 'stage'}"
    if name == "InvalidMeshOutputType":
        first = module["types"][ep["mesh_info"]["vertex_output_type"]]["inner"]
        return f"{base}/mesh_info/{'primitive' if 'Struct' in first else 'vertex'}_output_type"
    step = {
        "UnexpectedEarlyDepthTest": "/early_depth_test", "UnexpectedWorkgroupSize": "/workgroup_size",
        "OutOfRangeWorkgroupSize": "/workgroup_size", "ForbiddenStageOperations": "/stage", "RayPayloadInInvalidStage": "/stage",
        "IncomingRayPayloadInInvalidStage": "/stage", "UnexpectedTaskPayload": "/task_payload",
        "TaskPayloadWrongAddressSpace": "/task_payload", "ExpectedTaskPayload": "/task_payload",
        "WrongTaskPayloadUsed": "/task_payload", "TaskPayloadTooSmall": "/task_payload",
        "WrongTaskShaderEntryResult": "/function/result", "UnexpectedMeshShaderEntryResult": "/function/result",
        "ExpectedMeshShaderAttributes": "/mesh_info", "UnexpectedMeshShaderAttributes": "/mesh_info",
        "BadMeshOutputVariableType": "/mesh_info", "BadMeshOutputVariableField": "/mesh_info",
        "WrongMeshOutputAddressSpace": "/mesh_info/output_variable",
        "InvalidMeshPrimitiveOutputType": "/mesh_info/primitive_output_type", "MoreThanOneImmediateUsed": "",
    }
    return base + step[name]


def members_of(module, ty):
    inner = module["types"][ty]["inner"]
    return inner["Struct"]["members"] if "Struct" in inner else []


def bound(module, pointer, own):
    """What has a binding: an argument or a result, or the members of its struct."""
    if own["binding"] is not None:
        return [(pointer, own["binding"])]
    ty = own["ty"]
    return [(f"/module/types/{ty}/inner/Struct/members/{at}", it["binding"])
            for at, it in enumerate(members_of(module, ty)) if it["binding"] is not None]


def in_bound(pointer, ty, group, checked, error):
    """What of an argument or a result has a fault: the second that has a location or a built-in, or the first that is one."""
    name = name_of(error)
    if name == "MemberMissingBinding":
        return f"/module/types/{ty}/inner/Struct/members/{error[name]}"
    if name in ("BindingCollision", "DuplicateBuiltIn"):
        named = [at for at, binding in group if is_named(error, binding)]
        return named[1]
    if name in ("InvalidBuiltInStage", "InvalidBuiltInType"):
        return next((at for at, binding in checked if is_named(error, binding)), pointer)
    return pointer


def is_named(error, binding):
    name = name_of(error)
    if name == "BindingCollision":
        return "Location" in binding and binding["Location"]["location"] == error[name]["location"]
    built_in = error[name][0] if name == "InvalidBuiltInType" else error[name]
    return "BuiltIn" in binding and name_of(binding["BuiltIn"]) == name_of(built_in)


def in_result(module, base, ep, error):
    name, mesh, result = name_of(error), ep["mesh_info"], ep["function"]["result"]
    if error == {"UnsupportedCapability": ["EARLY_DEPTH_TEST"]} and ep["early_depth_test"] is not None:
        return f"{base}/early_depth_test"
    if mesh is None:
        pointer = f"{base}/function/result"
        group = bound(module, pointer, result)
        return in_bound(pointer, result["ty"], group, group, error)
    outputs = [mesh["vertex_output_type"], mesh["primitive_output_type"]]
    if name == "MemberMissingBinding":
        of = next(ty for ty in outputs if members_of(module, ty)[error[name] :][:1] and
                  members_of(module, ty)[error[name]]["binding"] is None)
        return f"/module/types/{of}/inner/Struct/members/{error[name]}"
    if name == "MissingPerPrimitive":
        return f"{base}/mesh_info/primitive_output_type"
    group = [it for ty in outputs for it in bound(module, "", {"ty": ty, "binding": None})]
    return in_bound(f"{base}/mesh_info", None, group, group, error)
