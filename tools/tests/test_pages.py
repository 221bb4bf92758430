#!/usr/bin/env python3
"""Tests the pages against the tree: what MAP and the READMEs name is there, what is there is named, and links lead
somewhere; that the clauses that PROOFS and the READMEs name are those of the function, the type or the record that they
name; that the README of tools/ has the options of each tool; that crates.txt names no library that a crate doesn't
cite, that no crate gives out lemmas that no other cites, and that no command of a page leaves its end to chance."""
from __future__ import annotations

import ast
import functools
import glob
import os
import re
from typing import Collection, Iterator, Mapping, NamedTuple

from casefiles import TOP, Tally, text_of, tool_names

CRATES = os.path.join(TOP, "crates")
# Pages whose commands are followed, and those whose links are.
FOLLOWED = ("BOARD.md", "FLOWS.md", "FIELD.md")
LINKED = ("docs/*.md", "bench/*.md", "tools/*.md", "examples/*.md", "crates/*/README.md", "crates/*/data/*.md")
# The files of a crate, by the folder and the ending.
SOURCES, DEFINITIONS, PROOFS = ("src", ".rt"), ("specs", ".antt"), ("proofs", ".antt")


class Clause(NamedTuple):
    """A clause of a crate's code, or a function of it."""

    owner: str  # the type or the trait that it is of, or none
    function: str  # the function that it is of, or none
    name: str  # its own, none where it is the function
    text: str


class Definition(NamedTuple):
    """A definition of a crate."""

    name: str
    words: set[str]  # the words of it
    bodies: list[str]  # the names with which its bodies begin


def crates() -> list[str]:
    """The crates, as crates.txt has them."""
    return [line.partition(":")[0] for line in text_of("crates.txt").splitlines() if line and not line.startswith("#")]


def cells(line: str) -> list[str]:
    """The cells of a table's row, and none of its rule."""
    row = [it.strip() for it in line.strip().strip("|").split("|")]
    return [] if not line.startswith("|") or set("".join(row)) <= set("-: ") else row


def map_rows() -> dict[str, tuple[str, str]]:
    """MAP's table of the crates: for each the text of its modules and that of its definitions."""
    rows: dict[str, tuple[str, str]] = {}
    crate, table = "", text_of("docs", "MAP.md").partition("\n## The crates\n")[2].partition("\n## ")[0]
    for row in (cells(line) for line in table.splitlines()):
        if len(row) == 3 and row[0] != "Crate":
            crate = row[0] or crate
            one, other = rows.get(crate, ("", ""))
            rows[crate] = (f"{one} {row[1]}", f"{other} {row[2]}")
    return rows


def names_in(folder: str, ending: str) -> set[str]:
    """The files below a folder, by their paths without the ending."""
    found = glob.glob(os.path.join(CRATES, folder, "**", f"*{ending}"), recursive=True)
    return {os.path.relpath(it, os.path.join(CRATES, folder))[: -len(ending)] for it in found}


def is_one_of(name: str, paths: Collection[str]) -> bool:
    """A path is named by itself or by its last parts."""
    return any(it == name or it.endswith(f"/{name}") for it in paths)


def lists_others(path: str, paths: Collection[str]) -> bool:
    """A file beside a folder of its name may be the list of what stands there."""
    return any(it.startswith(f"{path}/") for it in paths)


def check_map(tally: Tally) -> None:
    """Each module and each specs file stands in MAP, and no other."""
    rows = map_rows()
    tally.same("the crates of MAP", sorted(rows), sorted(crates()))
    for crate, (modules, definitions) in sorted(rows.items()):
        for what, text, paths, roots in (
            ("module", modules, names_in(f"{crate}/src", ".rt"), {"lib", "main"}),
            ("specs file", definitions, names_in(f"{crate}/specs", ".antt"), {"Lib"}),
        ):
            named = re.findall(r"`([A-Za-z_/0-9]+)`", text)
            for path in sorted(paths - roots):
                is_named = any(is_one_of(it, {path}) for it in named) or lists_others(path, paths)
                tally.check(f"{crate}: MAP names its {what} {path}", is_named, sorted(named))
            if what == "specs file":
                lost = [it for it in named if it[0].isupper() and not is_one_of(it, paths)]
                tally.same(f"{crate}: the specs files that MAP names and that aren't there", lost, [])


def anchors_of(path: str) -> set[str]:
    """The places in a page that a link can name: its headings, in small letters, with hyphens for spaces."""
    with open(path, encoding="utf-8") as file:
        headings = re.findall(r"^#+ (.*)$", re.sub(r"^```.*?^```", "", file.read(), flags=re.M | re.S), re.M)
    return {re.sub(r"[^\w\- ]", "", it.lower()).replace(" ", "-") for it in headings}


def check_links(tally: Tally) -> None:
    """A link to a file of the tree leads to one, and one to a place in a page to a heading of it."""
    pages = [os.path.join(TOP, it) for it in ("README.md", "CHANGELOG.md")]
    for pattern in LINKED:
        pages += glob.glob(os.path.join(TOP, pattern))
    for page in sorted(pages):
        text = text_of(page)
        for link, anchor in re.findall(r"\]\(([^)\s#]*)(?:#([^)\s]*))?\)", text):
            if "://" not in link:
                there = os.path.join(os.path.dirname(page), link) if link else page
                is_there = os.path.exists(there) and (not anchor or anchor in anchors_of(there))
                tally.check(f"{os.path.relpath(page, TOP)}: the link {link}#{anchor}", is_there, there)


def check_pipes(tally: Tally) -> None:
    """No page's command has x7 write to `head`, or another that may leave before the end: whether that is a write fault
    is chance."""
    leaves = r"(?:head|true|grep -\w*[qm]|sed (?:-\w+ )*\S*q\b)"
    for page in FOLLOWED:
        found = re.findall(rf"^ *\$ .*\bx7 [^|\n]*\| *{leaves}.*", text_of("crates", "x7_cases", "data", page), re.M)
        tally.same(f"{page}: commands whose reader may leave", found, [])


def check_readme(tally: Tally) -> None:
    """README's table of what is proved has each crate, and each library a README of its own."""
    table = text_of("README.md").partition("## What is proved, crate by crate")[2]
    for crate in crates():
        tally.check(f"README has {crate}", re.search(rf"^\|.*\b{crate}\b[^|]*\|", table, re.M) is not None, crate)
        if crate != "x7":
            tally.check(f"{crate} has a README", os.path.isfile(os.path.join(CRATES, crate, "README.md")), crate)


@functools.lru_cache(maxsize=None)
def says(crate: str) -> set[str]:
    """The names of clauses, fields, functions and definitions that a crate's code and definitions have."""
    found: set[str] = set()
    items = r"\b(?:ensures|requires|fn|ghost|struct|enum|trait|const|static|type|mod) (\w+)"
    for part, ending in (SOURCES, DEFINITIONS):
        for path in names_in(f"{crate}/{part}", ending):
            text = text_of("crates", crate, part, path + ending)
            found.update(re.findall(items, text))
            found.update(re.findall(r"^\s*(?:pub |abbrev |unfoldable |record |data )*([\w-]+)\b.* : ", text, re.M))
            found.update(re.findall(r"\b(?:record|data) (\w+)", text))
            found.add(path.rpartition("/")[2])
    return found


def options_of(text: str) -> list[str]:
    """The options that a text names, but for --help, which each tool has."""
    return sorted(set(re.findall(r"--[a-z]\w*(?:-\w+)*", text)) - {"--help"})


def check_tools(tally: Tally) -> None:
    """Each tool has a row in the README of tools/ whose forms name the options that its help names."""
    forms = re.findall(r"^\| (`.*?`) \| ", text_of("tools", "README.md"), re.M)
    for name in tool_names():
        row = " ".join(it for it in forms if re.match(rf"`{name}\b", it))
        tally.check(f"the README of tools/ has {name}", row, forms)
        document = ast.get_docstring(ast.parse(text_of("tools", name))) or ""
        tally.same(f"the options of {name}", options_of(row), options_of(document))


@functools.lru_cache(maxsize=None)
def crates_below() -> dict[str, list[str]]:
    """For each crate itself and, of what crates.txt names for it, the crates that are there."""
    lines = [line.partition(":") for line in text_of("crates.txt").splitlines() if not line.startswith("#")]
    return {crate: [crate] + [it for it in libraries.split() if it in crates()] for crate, _, libraries in lines}


def clause_end(text: str, start: int) -> int:
    """Where the braces of a clause that begins there are closed."""
    depth = 0
    for place in range(start, len(text)):
        depth += (text[place] == "{") - (text[place] == "}")
        if depth == 0:
            return place
    return len(text)


def clauses_of(crate: str) -> Iterator[Clause]:
    """The clauses of a crate's code, each with its function, the type or trait of that, its own name and its text."""
    owner, function = "", ""
    item = r"^(?:pub(?:\(crate\))? )?(?:impl(?:<.*?>)? (?:\w+(?:<.*?>)? for )?|trait |struct |enum )(\w+)|^\}"
    part = r"^ *(?:pub(?:\(crate\))? )?fn (\w+)|^ +(?:ensures|requires|ghost)\*? ?(\w*)[^{\n]*\{"
    for path in sorted(names_in(f"{crate}/src", ".rt")):
        text = re.sub(r"//.*", "", text_of("crates", crate, "src", path + ".rt"))
        for found in re.finditer(f"{item}|{part}", text, re.M):
            if found[0].startswith("}"):
                owner, function = "", ""
            elif found[1]:
                owner, function = found[1], ""
            elif found[2]:
                owner, function = owner if found[0].startswith(" ") else "", found[2]
                yield Clause(owner, function, "", "")
            else:
                yield Clause(owner, function, found[3], text[found.end() : clause_end(text, found.end() - 1)])


@functools.lru_cache(maxsize=None)
def definitions_in(crate: str) -> list[Definition]:
    """The definitions of a crate: of each its name, its words, and the names with which its bodies begin."""
    found = []
    for path in names_in(f"{crate}/specs", ".antt"):
        text = re.sub(r"^(?: *--|use ).*", "", text_of("crates", crate, "specs", path + ".antt"), flags=re.M)
        for it in re.split(r"^(?:pub |abbrev |unfoldable |record |data )+", text, flags=re.M)[1:]:
            name = it.split(maxsplit=1)[0]
            bodies = [first for whose, first in re.findall(r"^(\S+) (?:.* )?=\s+(\w+)", it, re.M) if whose == name]
            found.append(Definition(name, set(re.findall(r"\w+", it)), bodies))
    return found


def definitions_of(crate: str) -> dict[str, set[str]]:
    """The words of each definition of a crate or of one below it, by its name; of one whose body begins with another's
    name, as an abbreviation of a record, the words of that too."""
    found: dict[str, set[str]] = {}
    bodies: dict[str, list[str]] = {}
    for name, words, firsts in (definition for it in crates_below()[crate] for definition in definitions_in(it)):
        found[name] = found.get(name, set()) | words
        bodies.setdefault(name, []).extend(firsts)
    return {name: words.union(*(found.get(it, ()) for it in bodies[name])) for name, words in found.items()}


def named_parts(crate: str) -> dict[str, set[str]]:
    """What may be named of each function, type, clause and definition of a crate.

    Of a clause it is what it cites, and what the first definition there does that is no binder's, such as the fields of
    a record; of a function its clauses, and what is of them; of a type or a trait its functions, and what is of them;
    of a definition what it cites."""
    known = definitions_of(crate)
    found = {name: set(words) for name, words in known.items()}
    for owner, function, name, text in clauses_of(crate):
        words = re.findall(r"\w+", text)
        first = next((it for it in re.findall(r"\w+", re.sub(r"\([\w ]+:[^()]*\)", "", text)) if it in known), "")
        for whole in (function, name, owner, f"{owner}::{function}"):
            found.setdefault(whole, set()).update(words, known.get(first, ()), (function, name, "ensures"))
    return found


LIST = r"(?:`[\w:]+`(?:, and |, | and ))*`[\w:]+`"


def claims_of(text: str) -> Iterator[tuple[list[str], list[str]]]:
    """What a text says to be parts of what: 'PARTS of NAMES' and 'NAMES: PARTS', where the names after a first one such
    as `Session::go` are of its type too."""
    lists = [(names, parts) for parts, names in re.findall(rf"({LIST}) of ({LIST})", text)]
    for names, parts in lists + re.findall(rf"({LIST}): ({LIST})", text):
        first, *others = re.findall(r"[\w:]+", names.replace(" and ", " "))
        owner = first.rpartition("::")[0]
        names = [first] + [f"{owner}::{it}" if owner and "::" not in it else it for it in others]
        yield re.findall(r"`([\w:]+)`", parts), names


def check_claims(tally: Tally, page: str, crate: str, text: str, parts: Mapping[str, dict[str, set[str]]]) -> None:
    """Each clause, field or definition that a page says to be a function's, a type's or a record's is one of that."""
    for claimed, names in claims_of(text):
        near = [parts[it].get(name, set()) for it in crates_below()[crate] for name in names]
        for it in claimed:
            tally.check(f"{page}: {crate} has {it} of {' or '.join(names)}", any(it in known for known in near), names)


def check_names(tally: Tally, page: str, crate: str, text: str, parts: Mapping[str, dict[str, set[str]]]) -> None:
    """Each name of a text in backquotes is one of a crate's, or of one below it; `TYPE::FUNCTION` is a function of
    it."""
    known: set[str] = set()
    for it in crates_below()[crate]:
        known.update(parts[it], says(it))
    for name in re.findall(r"`(\w+(?:::\w+)?)`", text):
        tally.check(f"{page}: {crate} has {name}", name in known or re.fullmatch(r"\d+", name), text)


def check_clauses(tally: Tally) -> None:
    """The clauses, fields and definitions that the pages name are there. Those of README's table and of PROOFS are of
    the crate of their row, and those of a crate's README of that, or of one below it. `specs/NAME` is a file of the
    crate."""
    parts = {crate: named_parts(crate) for crate in crates()}
    for crate in crates():
        if crate == "x7":
            continue
        text = text_of("crates", crate, "README.md")
        check_claims(tally, f"the README of {crate}", crate, text, parts)
        for name in re.findall(r"`specs/([A-Za-z/]+)(?:\.antt)?`", text):
            path = os.path.join(CRATES, crate, "specs", name)
            is_there = os.path.isfile(f"{path}.antt") or os.path.isdir(path)
            tally.check(f"{crate}: its README's specs/{name}", is_there, name)
    table = text_of("README.md").partition("## What is proved, crate by crate")[2]
    rows = re.findall(r"^\| \[(x7\w*)\][^|]*\|[^|]*\|([^|]*)\|", table, re.M)
    pages = [("README", crate, text) for crate, text in rows]
    for row in (line for line in text_of("docs", "PROOFS.md").splitlines() if re.match(r"- \[?x7", line)):
        pieces = re.split(r"(?:^- |; )\[?(x7\w*)(?:\]\([^)]*\))?(?:: | (?=`))", row)[1:]
        pages += [("PROOFS", crate, text) for crate, text in zip(pieces[::2], pieces[1::2])]
    tally.check("README and PROOFS have rows of clauses", len(rows) > 20 and len(pages) > 50, pages)
    for page, crate, text in pages:
        check_claims(tally, page, crate, text, parts)
        check_names(tally, page, crate, text, parts)
    unsaid = text_of("docs", "PROOFS.md").partition("## What no clause says")[2].partition("\n## ")[0]
    found = list(claims_of(unsaid))
    tally.check("what no clause says names clauses", len(found) > 3, unsaid)
    for claimed, names in found:
        for it in claimed:
            is_there = any(it in known.get(name, ()) for known in parts.values() for name in names)
            tally.check(f"PROOFS, what no clause says: {it} of {' or '.join(names)}", is_there, names)


def check_libraries(tally: Tally) -> None:
    """Each library that crates.txt names for a crate is cited by its code, its definitions or its proofs."""
    for line in text_of("crates.txt").splitlines():
        crate, _, libraries = line.partition("#")[0].partition(":")
        paths: list[str] = []
        for part, ending in (SOURCES, DEFINITIONS, PROOFS):
            paths += [f"{crate}/{part}/{it}{ending}" for it in names_in(f"{crate}/{part}", ending)]
        words = {word for path in paths for word in re.findall(r"\w+", text_of("crates", path))}
        for library in libraries.split():
            tally.check(f"{crate} cites {library}", library in words, f"no file of crates/{crate} names it")


def check_lemmas(tally: Tally) -> None:
    """Each file of lemmas that a crate gives out is cited by another crate."""
    cited: set[tuple[str, str]] = set()
    for crate in crates():
        for part, ending in (SOURCES, DEFINITIONS, PROOFS):
            for it in names_in(f"{crate}/{part}", ending):
                found = re.findall(r"Rattle\.(\w+)\.proofs\.(\w+)", text_of("crates", crate, part, it + ending))
                cited |= {name for name in found if name[0] != crate}
    for crate in crates():
        if os.path.exists(os.path.join(CRATES, crate, "proofs", "Lib.antt")):
            for module in re.findall(r"^pub mod (\w+)", text_of("crates", crate, "proofs", "Lib.antt"), re.M):
                is_cited = (crate, module) in cited
                tally.check(f"lemmas of {crate}: {module}", is_cited, "no other crate cites it: 'mod' is enough")


tally = Tally()
check_map(tally)
check_libraries(tally)
check_lemmas(tally)
check_links(tally)
check_pipes(tally)
check_readme(tally)
check_tools(tally)
check_clauses(tally)
tally.end()
