"""A module that is made part by part, and the document of it over the plain layer."""

import plain
from form import CAPABILITIES, FLAGS, GOOD, OPERATIONS, STAGES


def function(expressions=(), body=(), local_variables=(), arguments=(), result=None):
    """A function. Locals are types or pairs of a type and an initializer, an argument is a type and its binding, so is a result;
    types are handles."""
    return {
        "arguments": [{"name": None, "ty": ty, "binding": binding} for ty, binding in arguments],
        "result": None if result is None else {"ty": result[0], "binding": result[1]},
        "local_variables": [local_of(of) for of in local_variables],
        "expressions": list(expressions),
        "body": list(body),
    }


def local_of(of):
    ty, init = of if isinstance(of, tuple) else (of, None)
    return {"name": None, "ty": ty, "init": init}


class Module:
    """A module and what is known of its types and global expressions. Types that aren't there yet are put as they are named."""

    def __init__(self, *types):
        self.infos = []
        self.global_types = []
        self.parts = {
            "types": [], "special_types": {"ray_desc": None}, "constants": [], "overrides": [], "global_variables": [],
            "global_expressions": [], "functions": [], "entry_points": [],
        }
        for ty in types:
            self.type(ty)

    def type(self, definition, info=GOOD, name=None):
        """The handle of a type, of its definition; a handle stands for itself."""
        if isinstance(definition, int):
            return definition
        entry = {"name": name, "inner": self.inner(definition)}
        if entry not in self.parts["types"]:
            self.parts["types"].append(entry)
            self.infos.append(info)
        return self.parts["types"].index(entry)

    def inner(self, definition):
        """The inner type, with the handles of those that it names."""
        (kind, held), = definition.items()
        if kind in ("Pointer", "Array", "BindingArray"):
            return {kind: {**held, "base": self.type(held["base"])}}
        if kind == "Struct":
            members = [{**member, "ty": self.type(member["ty"])} for member in held["members"]]
            return {kind: {**held, "members": members}}
        return definition

    def global_(self, space, ty, binding=None, init=None, decorations=()):
        """The handle of a new global, whose binding is a number in group 0."""
        variables = self.parts["global_variables"]
        variables.append({
            "space": space,
            "binding": None if binding is None else {"group": 0, "binding": binding},
            "ty": self.type(ty),
            "init": init,
            "memory_decorations": list(decorations),
        })
        return len(variables) - 1

    def global_expression(self, expression, ty):
        """The handle of a new global expression of a type."""
        self.parts["global_expressions"].append(expression)
        self.global_types.append({"Handle": self.type(ty)})
        return len(self.global_types) - 1

    def override(self, ty):
        self.parts["overrides"].append({"ty": self.type(ty)})
        return len(self.parts["overrides"]) - 1

    def function(self, made):
        """The handle of a new function."""
        self.parts["functions"].append(made)
        return len(self.parts["functions"]) - 1

    def entry_point(self, stage, made, workgroup_size=(0, 0, 0), mesh=None, payload=None, tests_depth=False):
        self.parts["entry_points"].append({
            "stage": stage, "early_depth_test": 0 if tests_depth else None, "workgroup_size": list(workgroup_size),
            "function": made, "mesh_info": mesh, "task_payload": payload,
        })

    def ray_descriptor(self, ty):
        self.parts["special_types"] = {"ray_desc": self.type(ty)}


def document(module, flags=FLAGS, capabilities=CAPABILITIES, stages=STAGES, operations=OPERATIONS, analysis=None,
             functions=None, entry_points=None, sizes=None, infos=None):
    """The document of a module. Its facts are those of the plain layer, whose answer about the output of each mesh is
    `analysis`, but where others are given."""
    parts = module.parts
    fact_of = lambda made: plain.function_fact(parts, made)
    facts = {
        "type_infos": module.infos if infos is None else infos,
        "global_types": module.global_types,
        "sizes": [plain.size_of(ty["inner"]) for ty in parts["types"]] if sizes is None else sizes,
        "mesh_analyses": [] if analysis is None else [analysis] * len(parts["global_variables"]),
        "functions": [fact_of(made) for made in parts["functions"]] if functions is None else functions,
        "entry_points": [fact_of(ep["function"]) for ep in parts["entry_points"]] if entry_points is None else entry_points,
    }
    return {
        "flags": flags, "capabilities": capabilities, "subgroup_stages": stages, "subgroup_operations": operations,
        "module": parts, "facts": facts,
    }
