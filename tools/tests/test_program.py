#!/usr/bin/env python3
"""Tests what the program says of itself: --help (-h, help) and --version, and that the man page and CHANGELOG have its
version and its forms."""
from __future__ import annotations

import re
import tempfile

from casefiles import text_of
from runs import X7, Bench, run


def pages(bench: Bench) -> tuple[list[str], str]:
    """What the two words write, alone and where standard output is closed or full."""
    came = run(bench.folder, [X7, "--help"])
    lines = came.out.decode().split("\n")
    bench.tally.same("--help, status", (came.status, came.err), (0, b""))
    bench.tally.check("--help is a page", len(lines) < 60 and max(map(len, lines)) < 80, len(lines))
    for words in (["-h"], ["help"], ["list", "--help"], ["play", "-h"], ["--help", "--help"]):
        bench.tally.same(f"{' '.join(words)} is --help", run(bench.folder, [X7, *words]), came)
    for name in ("help", "./--help"):
        missing = (3, b"", f"x7: missing {name}\n".encode())
        bench.tally.same(f"a file named {name}", run(bench.folder, [X7, "list", name]), missing)
    bench.tally.same("no word", run(bench.folder, [X7]), (2, b"", b"x7: usage\n"))
    version = run(bench.folder, [X7, "--version"])
    bench.tally.same("--version, status", (version.status, version.err), (0, b""))
    for word in ("--help", "-h", "help", "--version"):
        bench.tally.same(f"{word}, closed", run(bench.folder, [X7, word], closed=[1]).status, 7)
        bench.tally.same(f"{word} and more", run(bench.folder, [X7, word, "more"]), (2, b"", b"x7: usage\n"))
    return lines, version.out.decode().strip()


def documents(bench: Bench, lines: list[str], version: str) -> None:
    """The forms of --help are those of the man page, and the version is its, and CHANGELOG's."""
    page = text_of("docs", "x7.1")
    shown = re.findall(r"x7 ((?:--)?[a-z]+)", " ".join(it for it in lines if re.match("(usage:|      ) x7 ", it)))
    for word in shown:
        is_there = re.search(rf"x7 {re.escape(word)}\b", page.replace("\\-", "-"))
        bench.tally.check(f"the man page has {word}", is_there, word)
    bench.tally.check("the forms", len(shown) == 16, shown)
    bench.tally.check("the man page's version", f'"{version}"' in page.split("\n")[0], page.split("\n")[0])
    bench.tally.check("CHANGELOG's version", f"## {version.split(' ')[-1]}" in text_of("CHANGELOG.md"), version)


with tempfile.TemporaryDirectory() as folder:
    bench = Bench(folder)
    if X7:
        documents(bench, *pages(bench))
    else:
        bench.tally.skip("--help and --version")
    bench.tally.end()
