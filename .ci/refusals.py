"""What the prover refused, by what it said of a crate: functions as it names them, laws as File.name.

A thing is refused by a fact where its proof has an error of its own, or where it is a function with a goal that nothing answers and the
search proved none. Two kinds of error show nothing of a fact: that a thing depends on one that was rejected or calls a function that is
not proved, and that a proof names a place, a goal or a field that the code no longer has (shape).
"""
import re

SHAPE = re.compile(
    r"has no `[^`]*` that can be named|has no field `|is not in scope|is no name|does not name"
    r"|wrong number of arguments|takes \d+ arguments|this pattern needs a function"
    r"|expected type `[\w.]*Lts\.[^`]*`, but this has type `[\w.]*Lts\."
)
ERROR = re.compile(r"^(?:\./)?proofs/(\S+)\.antt:\d+:\d+: error: (.*)$", re.M)
DEPENDS = re.compile(r"\d+ declarations? that depends? on `[^`]*`, which was (?:rejected|not admitted), (?:was|were) not checked: (.*)")
FUNCTION = re.compile(r"^fn (\S+): ((?:not proved|no proof).*)$", re.M)
UNREAD = re.compile(r"is not in scope|has no field|is no name|operand is missing|expected the end|cannot continue")


def reached(text):
    """Whether the compiler handed the crate to the prover, and that refused it."""
    return re.search(r"^logic=not-proved", text, re.M) is not None


def errors(text):
    """Each error of a proof file: the file below proofs/, the name that it is an error of, what was said, and whether by a fact."""
    for file, said in ERROR.findall(text):
        depends = DEPENDS.match(said)
        if depends:
            names = re.sub(r" and \d+ more$", "", depends.group(1))
            yield from ((file, name.split(" ")[0], said, False) for name in names.split(", "))
        named = re.match(r"`([^`]+)`: (.*)", said)
        if named:
            yield file, named.group(1), named.group(2), not SHAPE.search(named.group(2))


def function_of(file, crate):
    """The function that a file below proofs/ proves something of, or None: laws stand in proofs/ itself."""
    folder, _, last = file.rpartition("/")
    return "::".join([crate, *folder.split("/")]) if folder and last in ("Answers", "Invariants", "Proof") else None


def refused(text, crate):
    """Each name of the crate that was refused, functions first, and whether by a fact of its own."""
    found, laws, own = {}, {}, {}
    for file, name, _, fact in errors(text):
        function = function_of(file, crate)
        if function:
            own[function] = own.get(function, False) or fact
        else:
            law = f"{file.replace('/', '.')}.{name}"
            laws[law] = laws.get(law, False) or fact
    for function, said in FUNCTION.findall(text):
        open_goal = "`search` did not prove" in said or said == "not proved" and function not in own
        found[function] = own.get(function, False) or open_goal
    return {**found, **laws}


def by_facts(text, crate):
    return [name for name, fact in refused(text, crate).items() if fact]


def is_unread(text, changed):
    """Whether the prover could not read a text of src/, of specs/ or of a file that was changed: then no fact was tried."""
    for file, name, said in re.findall(r"^(?:\./)?(\S+?):\d+:\d+: error: (?:(`[^`]*`): )?(.*)", text, re.M):
        if (file in changed or file.startswith(("src/", "specs/"))) and (not name or UNREAD.search(re.sub(r"`[^`]*`", "", said))):
            return True
    return False
