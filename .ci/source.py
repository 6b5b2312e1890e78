"""What the checks of the gate read alike: the project's files, its public functions and its edits. Text alone."""
import glob
import os
import re
from typing import NamedTuple

ROOT = os.path.dirname(os.path.dirname(os.path.abspath(__file__)))


class Function(NamedTuple):
    """A function of crates/*/src: `turns::Core::turn`, its file, its place in antt's names, its signature and clauses."""

    name: str
    path: str
    module: str
    head: str


def read(path):
    with open(os.path.join(ROOT, path), encoding="utf-8") as file:
        return file.read()


def files(pattern):
    """The files that a pattern of the project finds, as paths from its top."""
    return sorted(os.path.relpath(path, ROOT) for path in glob.glob(f"{ROOT}/{pattern}", recursive=True))


def crates():
    return {os.path.basename(path) for path in files("crates/*")}


def head_at(text, start):
    """From a function's first word to the brace that opens its body, at the end of a line."""
    body = re.compile(r"\{\s*$", re.M).search(text, start)
    return text[start : body.start() if body else len(text)]


def public_functions():
    """Each `pub fn` of a library or a program, whatever its module."""
    for path in files("crates/*/src/**/*.rt"):
        crate, inside = path.split("/")[1], path.split("/src/")[1][: -len(".rt")]
        module = [] if inside in ("lib", "main") else inside.split("/")
        text, owner = read(path), None
        for line in re.finditer(r"^.*$", text, re.M):
            begins = re.match(r"impl (\w+)", line.group())
            owner = begins.group(1) if begins else None if line.group().startswith("}") else owner
            function = re.match(r"\s*pub (?:extern \"C\" )?fn (\w+)", line.group())
            if function:
                named = [part for part in (owner, function.group(1)) if part]
                yield Function("::".join([crate] + named), path, ".".join(module + named), head_at(text, line.start()))


def must_fail_edits():
    """CRATE/NAME of each must-fail edit, with its file."""
    return {f"{path.split('/')[1]}/{os.path.basename(path)[: -len('.edit')]}": path for path in files("crates/*/must-fail/*.edit")}


def blocks(path):
    """The blocks of a file of tried/: each a list of (word, value)."""
    for block in re.split(r"\n\s*\n", read(path).strip()):
        lines = [line for line in block.split("\n") if line.strip() and not line.startswith("#")]
        if lines:
            yield [line.partition(": ")[::2] for line in lines]


def told(faults, counted):
    """Print the faults and what was looked at; the exit status."""
    for fault in faults:
        print(fault)
    print(f"{counted}, {len(faults)} faults")
    return 1 if faults else 0
