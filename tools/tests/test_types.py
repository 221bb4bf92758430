#!/usr/bin/env python3
"""Tests that mypy --strict accepts the tools, their tests, bench/ and build, where mypy is installed; that no line of
them is past 120 characters; that no function lacks a type or has more than 40 lines; and that types have one form."""
from __future__ import annotations

import ast
import glob
import os
import shutil
import subprocess
import tempfile

from casefiles import TOP, Tally

# How many characters a line has at most, and how many lines a function.
WIDTH, LENGTH = 120, 40
# What is checked together, by folders: modules of one name don't stand in one call.
GROUPS = [["tools", "tools/tests", "build", "parts", "release"], ["bench"]]
# The names of typing for which annotations have `X | None`, `list[X]` and the like. What is evaluated, as an alias is,
# keeps them, since Python 3.8 can't subscript its own types.
OF_TYPING = {"Optional", "Union", "List", "Dict", "Set", "FrozenSet", "Tuple", "Type"}
BUILT_IN = {"list", "dict", "set", "frozenset", "tuple", "type"}


def is_python(path: str) -> bool:
    """Whether a file is a module or a script of Python."""
    if path.endswith(".py"):
        return True
    if not os.path.isfile(path) or "." in os.path.basename(path):
        return False
    with open(path, "rb") as file:
        return file.readline().startswith(b"#!/usr/bin/env python3")


def files_of(place: str) -> list[str]:
    """The files of Python of a folder, or the one that is named, below the top."""
    path = os.path.join(TOP, place)
    found = glob.glob(os.path.join(path, "*")) if os.path.isdir(path) else [path]
    return sorted(os.path.relpath(it, TOP) for it in found if is_python(it))


def errors_of(files: list[str], places: list[str], cache: str) -> dict[str, list[str]]:
    """The errors that mypy finds, by file."""
    search = os.pathsep.join(os.path.join(TOP, it) for it in [*places, "tools"] if os.path.isdir(os.path.join(TOP, it)))
    command = ["mypy", "--strict", "--scripts-are-modules", "--no-error-summary", "--cache-dir", cache, *files]
    done = subprocess.run(
        command, cwd=TOP, env={**os.environ, "MYPYPATH": search}, check=False,
        stdout=subprocess.PIPE, stderr=subprocess.STDOUT, universal_newlines=True)
    found: dict[str, list[str]] = {}
    for line in done.stdout.splitlines():
        if ": note: " not in line:
            found.setdefault(line.partition(":")[0], []).append(line)
    return found


def check_types(tally: Tally) -> None:
    """No file has errors."""
    if not shutil.which("mypy"):
        tally.skip("mypy --strict, which isn't installed")
        return
    with tempfile.TemporaryDirectory(prefix="x7-mypy-") as cache:
        for places in GROUPS:
            files = [it for place in places for it in files_of(place)]
            found = errors_of(files, places, cache)
            for name in sorted({*files, *found}):
                lines = found.get(name, [])
                tally.check(f"mypy --strict {name}", not lines, "; ".join(lines[:3]))


def check_lines(tally: Tally) -> None:
    """No line is past the width."""
    for places in GROUPS:
        for name in (it for place in places for it in files_of(place)):
            with open(os.path.join(TOP, name), encoding="utf-8") as file:
                wide = [str(number) for number, line in enumerate(file, 1) if len(line.rstrip("\n")) > WIDTH]
            tally.check(f"{name}: lines past {WIDTH}", not wide, ", ".join(wide))


def nodes_of(name: str) -> list[ast.AST]:
    """All of what a file is made of."""
    with open(os.path.join(TOP, name), encoding="utf-8") as file:
        return list(ast.walk(ast.parse(file.read())))


def lacks_types(function: ast.FunctionDef) -> bool:
    """Whether a function says no type of what it answers, or of what it takes."""
    given = function.args
    taken = [*given.posonlyargs, *given.args, *given.kwonlyargs, *filter(None, (given.vararg, given.kwarg))]
    return function.returns is None or any(it.annotation is None for it in taken if it.arg not in ("self", "cls"))


def check_functions(tally: Tally) -> None:
    """No function lacks a type, also where mypy isn't installed, and none has more lines than LENGTH."""
    for places in GROUPS:
        for name in (it for place in places for it in files_of(place)):
            functions = [it for it in nodes_of(name) if isinstance(it, ast.FunctionDef)]
            bare = [it.name for it in functions if lacks_types(it)]
            tally.same(f"{name}: functions that lack a type", bare, [])
            long = [it.name for it in functions if (it.end_lineno or 0) - it.lineno >= LENGTH]
            tally.same(f"{name}: functions of more than {LENGTH} lines", long, [])


def annotation_of(node: ast.AST) -> ast.expr | None:
    """The type that is said of a function's answer, of what it takes, or of a name; or none."""
    if isinstance(node, ast.FunctionDef):
        return node.returns
    return node.annotation if isinstance(node, (ast.arg, ast.AnnAssign)) else None


def is_literal(node: ast.AST) -> bool:
    """Whether this is a Literal, whose texts are no types."""
    return isinstance(node, ast.Subscript) and isinstance(node.value, ast.Name) and node.value.id == "Literal"


def check_forms(tally: Tally) -> None:
    """Annotations have one form for a type, without quotes, and nothing is evaluated that Python 3.8 can't."""
    for name in (it for places in GROUPS for place in places for it in files_of(place)):
        nodes = nodes_of(name)
        said = {it for node in map(annotation_of, nodes) if node is not None for it in ast.walk(node)}
        others = [it.lineno for it in said if isinstance(it, ast.Name) and it.id in OF_TYPING]
        literal = {it for node in said if is_literal(node) for it in ast.walk(node)}
        quoted = [it.lineno for it in said - literal if isinstance(it, ast.Constant) and isinstance(it.value, str)]
        tally.same(f"{name}: lines with types of another form", sorted(others + quoted), [])
        parts = [it.value for it in nodes if isinstance(it, ast.Subscript) and it not in said]
        late = [it.lineno for it in parts if isinstance(it, ast.Name) and it.id in BUILT_IN]
        tally.same(f"{name}: lines that Python 3.8 can't evaluate", late, [])


tally = Tally()
check_lines(tally)
check_functions(tally)
check_forms(tally)
check_types(tally)
tally.end()
