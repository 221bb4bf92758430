#!/usr/bin/env python3
"""Tests ./install: what it says stands there, its pages lead to one another and nowhere else, the manual page has each
tool with its options, and an installed tool finds the installed program, the shelf, and the names of the others."""
from __future__ import annotations

import os
import re
import subprocess
import sys
import tempfile

from casefiles import TOP, Tally, text_of, tool_names
from runs import X7, run

EXAMPLES = [os.path.join(TOP, *it) for it in (["examples"], ["crates", "x7_cases", "data", "examples"])]
PAGES = ("README", "CHANGELOG", "FORMATS", "PARTS", "BOARD", "FLOWS", "FIELD", "TOOLS")
# The tools that work on the repository, and stay there.
STAY = {"attack", "follow", "test"}
INSTALL = os.path.join(TOP, "install")
OPTION = r"--[a-z]\w*(?:-\w+)*"

tally = Tally()


def refused(folder: str) -> None:
    """What it doesn't take."""
    tally.same("install of no folder, status", run(folder, [INSTALL]).status, 2)
    tally.same("install -h, status", run(folder, [INSTALL, "-h"]).status, 0)
    tally.same("install of another option, status", run(folder, [INSTALL, "--other"]).status, 2)
    os.environ["X7"] = os.path.join(folder, "nowhere")
    came = run(folder, [INSTALL, "none"])
    is_there = os.path.exists(os.path.join(folder, "none"))
    tally.same("install of a program that isn't there", (came.status, came.err.count(b"\n"), is_there), (2, 1, False))


def pages(place: str) -> None:
    """The pages: which are put, that each link of them leads to a file that is put, or to a section that is there."""
    names = sorted(os.listdir(place))
    tally.same("the pages that are put", names, sorted(["examples", "frames.svg", *(f"{it}.md" for it in PAGES)]))
    texts = {}
    for page in PAGES:
        with open(os.path.join(place, f"{page}.md"), encoding="utf-8") as file:
            texts[f"{page}.md"] = file.read()
    for page, text in texts.items():
        links = re.findall(r"\]\(([^)]*)\)", text)
        tally.check(f"{page} has links", links or page == "CHANGELOG.md", text[:80])
        for link in links:
            target, _, section = (page + link if link.startswith("#") else link).partition("#")
            is_so = link.startswith("https:") or os.path.isfile(os.path.join(place, target))
            is_so = is_so and (not section or section in sections(texts[target]))
            tally.check(f"{page}: the link {link} leads somewhere", is_so)
    first = texts["README.md"].partition("## Where to go on")[0]
    tally.check("README names the tools as they are called", "$ x7-why " in first and "tools/" not in first, first)
    shown = sorted(it for folder in EXAMPLES for it in os.listdir(folder))
    tally.same("the examples that are put", sorted(os.listdir(os.path.join(place, "examples"))), shown)


def sections(text: str) -> set[str]:
    """The names by which links lead to the sections of a page."""
    heads = re.findall(r"^#+ (.*)$", text, re.M)
    return {re.sub(r"[^\w -]", "", it).strip().lower().replace(" ", "-") for it in heads}


def manual(place: str) -> None:
    """The manual pages are put; that of the tools has the version of x7's, and each tool with its options."""
    tally.same("the manual pages that are put", sorted(os.listdir(place)), ["x7-tools.1", "x7.1"])
    with open(os.path.join(place, "x7-tools.1"), encoding="utf-8") as file:
        page = file.read().replace("\\-", "-")
    version = text_of("docs", "x7.1").split("\n")[0].split('"')[1]
    tally.check("the version of the manual page", f'"{version}"' in page.split("\n")[0], page.split("\n")[0])
    rows = re.findall(r"^\.TP\n(\\fBx7-.*)$", page, re.M)
    tools = sorted({it for row in rows for it in re.findall(r"\\fBx7-(\w+)", row)})
    tally.same("the tools of the manual page", tools, [it for it in tool_names() if it not in STAY])
    for tool in tools:
        named = {it for row in rows if re.search(rf"\\fBx7-{tool}\b", row) for it in re.findall(OPTION, row)}
        came = subprocess.run([sys.executable, os.path.join(TOP, "tools", tool), "--help"], stdout=subprocess.PIPE)
        wanted = set(re.findall(OPTION, came.stdout.decode())) - {"--help"}
        tally.same(f"the options of {tool} in the manual page", named, wanted)


def tools(folder: str, files: list[str]) -> None:
    """The installed tools: their names, and what they find."""
    put = sorted(it for it in files if it.startswith("there/bin/x7-"))
    tally.same("the tools that are put", len(put), len(set(tool_names()) - STAY))
    for tool in put:
        tally.same(f"{tool} --help, status", run(folder, [os.path.join(folder, tool), "--help"]).status, 0)
        name, came = os.path.basename(tool), run(folder, [os.path.join(folder, tool), "--nonsense"])
        line = came.err.decode()
        tally.check(f"{tool} signs with its name", came.status == 2 and line.startswith(f"{name}: "), line)
    os.environ["PATH"] = os.path.join(folder, "there", "bin") + os.pathsep + os.environ["PATH"]
    del os.environ["X7"]
    shelf = os.path.join(folder, "there", "share", "x7", "parts")
    came = run(folder, ["x7-part", "--shelf", "xc7a35t"])
    tally.same("an installed tool finds the shelf", came.out.decode(), os.path.join(shelf, "xc7a35t.part") + "\n")
    parts = sorted(it for it in os.listdir(os.path.join(TOP, "parts")) if it.endswith(".part"))
    tally.same("the shelf is put", sorted(os.listdir(shelf)), parts)
    came = run(folder, ["x7-turn", "--help"])
    is_so = b"x7-turn FILE > STREAM" in came.out and b"tools/" not in came.out
    tally.check("an installed tool calls itself by its name", is_so, came)
    with open(os.path.join(folder, "swapped"), "wb") as file:
        file.write(bytes.fromhex("665599AA 00000020 01800030 07000000 00000020"))
    came = run(folder, ["x7-why", "swapped"])
    tally.check("an installed tool names another by its name", b"\nremedy: x7-turn FILE > NEW\n" in came.out, came)
    plays(folder)


def plays(folder: str) -> None:
    """An installed tool plays by the installed program, and says where there is none."""
    files = [os.path.join(EXAMPLES[0], it) for it in ("tiny.part", "first.bin")]
    came = run(folder, ["x7-why", "--part", *files])
    is_so = b"cause: the stream is for a device with IDCODE" in came.out
    tally.check("an installed tool plays by the installed program", is_so, came)
    os.remove(os.path.join(folder, "there", "bin", "x7"))
    os.symlink(sys.executable, os.path.join(folder, "there", "bin", "python3"))
    os.environ["PATH"] = os.path.join(folder, "there", "bin")
    came = run(folder, ["x7-why", "--part", *files])
    tally.check("an installed tool finds no program", b"\nnote: there is no x7 on the path, " in came.out, came)


with tempfile.TemporaryDirectory() as name:
    refused(name)
    if X7:
        os.environ["X7"] = X7
        put_files = run(name, [INSTALL, "there"])
        tally.same("install, status", (put_files.status, put_files.err), (0, b""))
        listed = put_files.out.decode().split("\n")[:-1]
        are_there = listed and all(os.path.isfile(os.path.join(name, it)) for it in listed)
        tally.check("install says what it put", are_there, listed)
        firmware = {os.path.join("there", "share", "x7", "firmware", it) for it in ("x7_update.h", "x7_update.c")}
        tally.check("the firmware's half of an update is put", firmware <= set(listed), listed)
        pages(os.path.join(name, "there", "share", "doc", "x7"))
        manual(os.path.join(name, "there", "share", "man", "man1"))
        tools(name, listed)
    else:
        tally.skip("install of a program")
tally.end()
