"""Rows of the program of naga_check, which are written in its notation (docs/PROGRAM.md), over its benches: of operands of what is
emitted, of what a Continue may have skipped, and of all sets of flags."""

import form as f
from form import BOOL, FLAGS, I32, NOWHERE, STAGES, U32
from module import Module, function
from statements import one_function, rows_of
from verdicts import not_in_scope

NAMES = ["t", "u", "i", "e1", "v", "x1"]

# By the word of a bench, the name and the expression that it has behind those.
OWN = {"P": {}, "C": {"r1": f.call_result(0)}, "D": {"e2": f.unary(5)}}


class Reader:
    """Reads the statements of a body over a bench, word by word."""

    def __init__(self, bench, text):
        self.names = [*NAMES, *OWN[bench]]
        self.words = text.split()

    def word(self):
        return self.words.pop(0)

    def next_is(self, word):
        """Whether the next word is this one, which is then read."""
        is_next = self.words[:1] == [word]
        if is_next:
            self.word()
        return is_next

    def name(self):
        return self.names.index(self.word())

    def name_if_any(self):
        """The next word, where it is a name."""
        return self.name() if self.words and self.words[0] in self.names else None

    def block(self):
        assert self.next_is("{")
        made = []
        while not self.next_is("}"):
            made.append(self.statement())
        return made

    def value(self):
        """The value of a case: the default, or a number, of which one with an i is signed."""
        word = self.word()
        if word == "default":
            return "Default"
        return {"I32": int(word[:-1])} if word.endswith("i") else {"U32": int(word)}

    def cases(self):
        assert self.next_is("{")
        made = []
        while not self.next_is("}"):
            value, falls = self.value(), self.next_is("fall")
            made.append(f.case(value, self.block(), falls))
        return made

    def loop(self):
        body, continuing = self.block(), self.block()
        return f.loop(body, continuing, self.name() if self.next_is("break_if") else None)

    def emit(self):
        first = self.name()
        return f.emit(first, (self.name() if self.next_is("..") else first) + 1)

    def call(self):
        assert self.next_is("f")
        return f.call(0, result=self.name() if self.next_is("->") else None)

    def statement(self):
        kind = self.word()
        if kind in ("break", "continue", "kill"):
            return kind.capitalize()
        return {
            "emit": self.emit, "loop": self.loop, "call": self.call, "block": lambda: f.block(*self.block()),
            "if": lambda: f.if_(self.name(), self.block(), self.block()),
            "switch": lambda: f.switch(self.name(), *self.cases()),
            "return": lambda: f.return_(self.name_if_any()),
            "store": lambda: {"Store": {"pointer": self.name(), "value": self.name()}},
            "barrier": lambda: {"ControlBarrier": []},
        }[kind]()

    def body(self):
        made = []
        while self.words:
            made.append(self.statement())
        return made


def row(bench, body, outcome, flags=FLAGS):
    expressions = [
        f.literal(f.BOOLEAN, 1), f.literal(f.UINT), f.literal(f.SINT), f.unary(0), f.local_variable(0), f.load(4),
    ] + list(OWN[bench].values())
    made = function(expressions, Reader(bench, body).body(), [1])
    module = Module(BOOL, U32, I32)
    if bench == "C":
        module.function(function([f.literal(f.UINT)], [f.return_(0)], result=(1, None)))
    is_unfilled = isinstance(outcome, dict) and "UnvisitedExpression" in outcome
    return one_function(module, made, outcome, None if is_unfilled else NOWHERE, flags=flags)


def put_again(handle):
    return {"ExpressionAlreadyInScope": handle}


def operands():
    return rows_of("program operands", [row("D", *told) for told in [
        ("emit e2", not_in_scope(5)),
        ("emit x1 .. e2", STAGES),
        ("block { emit x1 } emit e2", not_in_scope(5)),
        ("emit x1 block { emit e2 } emit e2", STAGES),
        ("emit x1 emit e2 emit e2", put_again(6)),
        ("loop { if t { continue } { } emit x1 } { emit e2 }", not_in_scope(5)),
        ("", STAGES),
        ("emit e2", STAGES, f.without(FLAGS, "BLOCKS")),
    ]])


def skipped():
    goes_on = "if t { continue } { }"
    return rows_of("program skipped", [row("P", *told) for told in [
        (f"loop {{ {goes_on} emit e1 }} {{ }} break_if e1", not_in_scope(3)),
        (f"loop {{ emit e1 {goes_on} }} {{ }} break_if e1", STAGES),
        (f"loop {{ {goes_on} emit e1 if e1 {{ }} {{ }} }} {{ }}", STAGES),
        (f"loop {{ {goes_on} emit e1 }} {{ emit e1 }}", put_again(3)),
        ("loop { loop { continue } { } emit e1 } { } break_if e1", STAGES),
        ("loop { switch u { default { continue } } emit e1 } { } break_if e1", not_in_scope(3)),
        ("loop { break continue emit e1 } { } break_if e1", not_in_scope(3)),
        (f"loop {{ {goes_on} emit e1 }} {{ loop {{ if e1 {{ }} {{ }} }} {{ }} }}", not_in_scope(3)),
        ("loop { if t { block { continue } } { } emit e1 } { } break_if e1", not_in_scope(3)),
        ("loop { loop { } { switch u { default { continue } } } emit e1 } { } break_if e1", "ContinueOutsideOfLoop"),
        ("loop { if t { return continue } { } emit e1 } { } break_if e1", not_in_scope(3)),
        (f"loop {{ {goes_on} {goes_on} emit e1 }} {{ }} break_if e1", not_in_scope(3)),
        (f"loop {{ emit e1 {goes_on} emit x1 }} {{ if e1 {{ }} {{ }} switch x1 {{ default {{ }} }} }}", not_in_scope(5)),
        (f"loop {{ emit e1 {goes_on} emit x1 }} {{ if e1 {{ }} {{ }} }} break_if e1", STAGES),
        (f"loop {{ emit e1 {goes_on} emit e1 }} {{ }}", put_again(3)),
        (f"loop {{ {goes_on} emit e1 }} {{ loop {{ emit e1 }} {{ }} }}", put_again(3)),
        (f"loop {{ {goes_on} emit e1 block {{ if e1 {{ }} {{ }} }} }} {{ }}", STAGES),
        (f"loop {{ {goes_on} emit e1 }} {{ }} emit e1", STAGES),
    ]])


# All sets of flags.

def of_call(error):
    return {"InvalidCall": {"function": 0, "error": error}}


BREAK = "BreakOutsideOfLoopOrSwitch"
MISSING = not_in_scope(3)
FILLED = of_call({"ResultAlreadyPopulated": 6})

# Bodies, and what is due with BLOCKS: where EXPRESSIONS is there, and where it isn't, if that is something else. Without BLOCKS no
# statement is looked at, so each body is accepted, in all stages. Without EXPRESSIONS a result counts as filled from the start, which
# refuses each good call that names one, and no result has to be filled at the end. The other two flags are about globals and entry
# points, which no bench has.
UNDER_FLAGS = [
    ("P", "", STAGES),
    ("P", "break", BREAK),
    ("P", "loop { switch u { default { continue } } } { }", STAGES),
    ("P", "loop { } { switch u { default { continue } } }", "ContinueOutsideOfLoop"),
    ("P", "loop { } { loop { return } { } }", "InvalidReturnSpot"),
    ("P", "loop { } { switch u { default { break } } }", STAGES),
    ("P", "loop { } { break }", BREAK),
    ("P", "if t { emit e1 } { emit e1 } emit e1", STAGES),
    ("P", "emit e1 emit e1", put_again(3)),
    ("P", "block { emit e1 } if e1 { } { }", MISSING),
    ("P", "emit t", put_again(0)),
    ("C", "emit r1", {"EmitResult": 6}),
    ("P", "loop { if t { continue } { } emit e1 } { } break_if e1", MISSING),
    ("P", "switch u { 1 fall { emit e1 } default { if e1 { } { } } }", MISSING),
    ("P", "switch u { default fall { } }", "LastCaseFallTrough"),
    ("P", "switch u { }", "MissingDefaultCase"),
    ("P", "switch u { 1 { } 1 { } default { } }", {"ConflictingSwitchCase": {"U32": 1}}),
    ("P", "switch u { 1i { } 1 { } 1 { } }", "ConflictingCaseType"),
    ("P", "loop { break emit e1 if e1 { } { } } { }", STAGES),
    ("C", "if t { call f -> r1 } { call f -> r1 }", FILLED),
    ("C", "call f -> r1 call f -> r1", of_call({"ResultAlreadyInScope": 6}), FILLED),
    ("C", "", {"UnvisitedExpression": 6}, STAGES),
    ("C", "call f -> r1", STAGES, FILLED),
    ("C", "call f", of_call({"ExpressionMismatch": None})),
    ("P", "kill", ["FRAGMENT"]),
    ("P", "kill barrier", []),
    ("P", "store v i", {"InvalidStoreTypes": {"pointer": 4, "value": 2}}),
    ("P", "return u", {"InvalidReturnType": {"expression": 1, "expected_ty": None}}),
]


def outcome_under(flags, *outcomes):
    if "BLOCKS" not in flags:
        return STAGES
    return outcomes[0] if "EXPRESSIONS" in flags else outcomes[-1]


def flags():
    """Each body under each of the sixteen sets."""
    sets = [[flag for at, flag in enumerate(FLAGS) if bits >> at & 1] for bits in range(16)]
    return rows_of("program flags", [
        row(bench, body, outcome_under(some, *outcomes), some) for bench, body, *outcomes in UNDER_FLAGS for some in sets
    ])
