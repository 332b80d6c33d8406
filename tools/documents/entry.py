"""Entry points from what they are like, as documents. A document has just the types, globals and functions that its entry points
name: a module is judged whole, and another global could be refused before the entry point is met."""

from collections import namedtuple
from dataclasses import dataclass, replace

import form as f
from form import CAPABILITIES, F32, FLAGS, STAGES, U32
from module import Module, document, function
import verdicts

Global = namedtuple("Global", "name space ty binding")
# In a fault: the handle of a type, and the type itself.
TypeOf = namedtuple("TypeOf", "ty")
InnerOf = namedtuple("InnerOf", "ty")

COUNTS = f.vector("Tri", f.UINT)
COLOR = f.vector("Quad", f.FLOAT)
PAIR = f.vector("Bi", f.UINT)
CORNERS = f.array(F32, 3)
STRUCTURE_TYPE = f.acceleration_structure(True)
SHORT = f.struct([], 3)

POSITION = (COLOR, f.built_in(f.position()))
INDICES = (COUNTS, f.built_in("TriangleIndices"))


def smooth(ty, at):
    return ty, f.location(at, "Perspective")


def by_primitive(ty, at):
    return ty, f.location(at, "Perspective", per_primitive=True)


# The struct of the two sources of a blend, the only one that is shared between stages.
SOURCES = f.struct([(COLOR, None), (COLOR, None)], 32)

# What is put out of a vertex: Position and location 0; location 1; location 1 without an interpolation.
VERTEX = f.struct([POSITION, smooth(F32, 0)], 32)
PLACELESS = f.struct([smooth(F32, 1)], 32)
ROUGH = f.struct([(F32, f.location(1))], 32)

# What is put out of a primitive: the indices of a triangle; these and location 0; location 2 alone; two built-ins of indices; the
# indices and Position; location 0 alone.
FACE = f.struct([INDICES], 32)
COLLIDING = f.struct([INDICES, by_primitive(F32, 0)], 32)
FACELESS = f.struct([by_primitive(F32, 2)], 32)
TWO_FACED = f.struct([INDICES, (PAIR, f.built_in("LineIndices"))], 32)
PLACED = f.struct([INDICES, POSITION], 32)
COLLIDING_FACELESS = f.struct([by_primitive(F32, 0)], 32)

# The globals, in their order. No module may have one that takes stores alone, so the sink takes atomic operations too.
OUTPUT = Global("output", "WorkGroup", U32, None)
PAYLOAD = Global("payload", "TaskPayload", U32, None)
SHORT_PAYLOAD = Global("short payload", "TaskPayload", SHORT, None)
IMMEDIATE = Global("immediate", "Immediate", U32, None)
OTHER_IMMEDIATE = Global("other immediate", "Immediate", U32, None)
UNIFORM = Global("uniform", "Uniform", U32, 0)
TWIN = Global("twin", "Uniform", U32, 0)
SINK = Global("sink", f.storage("STORE", "ATOMIC"), U32, 0)
RAY_PAYLOAD = Global("ray payload", "RayPayload", U32, None)
INCOMING = Global("incoming", "IncomingRayPayload", U32, None)
STRUCTURE = Global("structure", "Handle", STRUCTURE_TYPE, 2)
OTHER_RAY_PAYLOAD = Global("other ray payload", "RayPayload", F32, None)
GLOBALS = [
    OUTPUT, PAYLOAD, SHORT_PAYLOAD, IMMEDIATE, OTHER_IMMEDIATE, UNIFORM, TWIN, SINK, RAY_PAYLOAD, INCOMING, STRUCTURE,
    OTHER_RAY_PAYLOAD,
]

# The functions that entry points call, and the stages that they may run in.
KILLS, WAITS, RESTS = "kills", "waits", "rests"
FUNCTIONS = {
    KILLS: (["Kill"], ["FRAGMENT"]),
    WAITS: ([{"ControlBarrier": ["WORK_GROUP"]}], f.COMPUTE_LIKE),
    RESTS: ([], STAGES),
}


@dataclass(frozen=True)
class Mesh:
    """What an entry point says of its mesh. The greatest numbers are 3 vertices and 1 primitive."""
    topology: str = "Triangles"
    overrides: tuple = (None, None)
    vertex: dict = None
    primitive: dict = None
    output: Global = OUTPUT


@dataclass(frozen=True)
class Analysis:
    """What the lower layer says of the output variable of a mesh: the number of vertices, the overrides, and a fault."""
    vertices: int = 3
    overrides: tuple = (None, None)
    fault: str = None


@dataclass(frozen=True)
class Case:
    """An entry point, and what it is judged over. Its function names globals, and its body calls functions (`Call` and which),
    traces a ray (`TraceRay`), or has another statement. The module may have globals beside those that are named."""
    stage: str
    tests_depth: bool = False
    workgroup_size: tuple = (0, 0, 0)
    mesh: Mesh = None
    payload: object = None
    globals: tuple = ()
    beside: tuple = ()
    body: tuple = ()
    arguments: tuple = ()
    declared: tuple = None
    analysis: Analysis = Analysis()
    capabilities: tuple = tuple(CAPABILITIES)
    flags: tuple = tuple(FLAGS)

    def but(self, **parts):
        return replace(self, **parts)

    def lacking(self, capability):
        return self.but(capabilities=tuple(f.without(CAPABILITIES, capability)))

    def naming(self, *names):
        return self.but(globals=names)

    def doing(self, *steps):
        return self.but(body=steps)


def triangles(**parts):
    return replace(Mesh(vertex=VERTEX, primitive=FACE), **parts)


def at(stage):
    return Case(stage)


def in_groups(stage):
    return Case(stage, workgroup_size=(1, 1, 1))


AT_VERTEX = at("Vertex").but(declared=POSITION)
AT_FRAGMENT = at("Fragment")
AT_COMPUTE = in_groups("Compute")
AT_TASK = in_groups("Task").but(payload=PAYLOAD, declared=(COUNTS, f.built_in("MeshTaskSize")))
AT_MESH = in_groups("Mesh").but(mesh=triangles())


class Bench:
    """A module of entry points, with handles for what they name."""

    def __init__(self, cases, variables=None):
        """Of the globals that cases name or have beside these, or of the given ones."""
        self.module = Module()
        named = [self.named_by(case) for case in cases]
        self.variables = [var for var in GLOBALS if any(var in names for names in named)] if variables is None else variables
        for var in self.variables:
            self.module.global_(var.space, self.type(var.ty), var.binding)
        self.module.ray_descriptor(COLOR)
        self.functions = []

    @staticmethod
    def named_by(case):
        mesh = [case.mesh.output] if case.mesh else []
        return [*case.globals, *case.beside, case.payload, *mesh]

    def type(self, definition):
        """The handle of a type. Of structs all but the one of sources are not shared between stages."""
        is_shared = not isinstance(definition, dict) or "Struct" not in definition or definition == SOURCES
        return self.module.type(definition, f.GOOD if is_shared else f.UNSHARED)

    def part(self, part):
        ty, binding = part
        return self.type(ty), binding

    def global_(self, var):
        """The handle of a global; a number stands for itself."""
        return self.variables.index(var) if isinstance(var, Global) else var

    def callee(self, name):
        """The handle of a function that an entry point calls; a number stands for itself."""
        if isinstance(name, int):
            return name
        if name not in self.functions:
            self.functions.append(name)
            self.module.function(function(body=FUNCTIONS[name][0]))
        return self.functions.index(name)

    def statement(self, step):
        if step == "TraceRay":
            return f.here(f.trace_ray(0, 2, 1))
        if isinstance(step, tuple):
            return f.here(f.call(self.callee(step[1])))
        return f.here(step)

    def function(self, case):
        expressions = [f.global_variable(self.global_(var)) for var in case.globals] + [f.zero(self.type(COLOR))]
        return function(
            expressions, [self.statement(step) for step in case.body],
            arguments=[self.part(part) for part in case.arguments],
            result=None if case.declared is None else self.part(case.declared),
        )

    def said(self, mesh, vertices, overrides):
        """What is said of a mesh, of so many vertices."""
        return {
            "topology": mesh.topology, "max_vertices": vertices, "max_vertices_override": overrides[0], "max_primitives": 1,
            "max_primitives_override": overrides[1], "vertex_output_type": self.type(mesh.vertex),
            "primitive_output_type": self.type(mesh.primitive), "output_variable": self.global_(mesh.output),
        }

    def enter(self, case):
        """Puts an entry point last."""
        mesh = case.mesh and self.said(case.mesh, 3, case.mesh.overrides)
        made = self.function(case)
        payload = self.global_(case.payload)
        self.module.entry_point(case.stage, made, case.workgroup_size, mesh, payload, case.tests_depth)

    def analysis(self, case):
        """What the plain layer implies of a mesh: what is said, and no override as a greatest number."""
        if case.mesh is None:
            return None
        implied = self.said(case.mesh, case.analysis.vertices, (None, None))
        return {"implied": implied, "overrides": list(case.analysis.overrides), "fault": case.analysis.fault}

    def resolved(self, fault):
        """A fault with handles in place of globals and types."""
        if isinstance(fault, Global):
            return self.global_(fault)
        if isinstance(fault, TypeOf):
            return self.type(fault.ty)
        if isinstance(fault, InnerOf):
            return self.module.inner(fault.ty)
        if isinstance(fault, dict):
            return {name: self.resolved(held) for name, held in fault.items()}
        return [self.resolved(item) for item in fault] if isinstance(fault, list) else fault

    def uses(self, case):
        """How an accepted entry point uses each global: what its function reads, and what its stage does."""
        found = []
        for var in self.variables:
            uses = {"READ"} if var in case.globals or (case.mesh and var == case.mesh.output) else set()
            if var == case.payload:
                uses |= {"Task": {"READ", "WRITE"}, "Mesh": {"READ"}}[case.stage]
            found.append([use for use in f.GLOBAL_USES if use in uses])
        return found

    def stages(self, case):
        """The stages that its statements leave an accepted entry point."""
        left = [FUNCTIONS[step[1]][1] for step in case.body if isinstance(step, tuple)]
        return f.met(*left, *([["FRAGMENT"]] if "Kill" in case.body else []))


def entry_row(case, fault=None, *with_all):
    """The document of one entry point, and the verdict that it is accepted or has this fault."""
    bench = Bench([case])
    if case.mesh and any(override is not None for override in (*case.mesh.overrides, *case.analysis.overrides)):
        for _ in range(2):
            bench.module.global_expression({"Override": bench.module.override(U32)}, U32)
        bench.module.global_expression(f.literal(f.UINT, 7), U32)
    bench.enter(case)
    analysis = bench.analysis(case)
    made = document(bench.module, list(case.flags), list(case.capabilities), analysis=analysis)
    if fault is not None:
        return (made, verdicts.in_entry_point(0, bench.resolved(fault)), *with_all)
    blends = case.stage == "Fragment" and case.declared == (SOURCES, None)
    told = verdicts.entry(bench.stages(case), bench.uses(case), blends)
    return made, verdicts.ok([FUNCTIONS[name][1] for name in bench.functions], [told])
