#!/usr/bin/env python3
"""Tests ./release: two releases of one program are the same bytes; its sums hold; and unpacked in an empty folder, with
a PATH that has Python alone, it does what README's first screen shows."""
from __future__ import annotations

import hashlib
import os
import re
import shutil
import subprocess
import sys
import tarfile
import tempfile

from casefiles import TOP, Tally, header, put_file
from runs import X7, run

RELEASE = os.path.join(TOP, "release")
# The frames of the design that stands for a user's own.
FRAMES = "frame 00000101 " + "00000001" * 101 + "\n"

tally = Tally()


def shown_commands(page: str) -> list[tuple[str, list[str]]]:
    """Each command of README's first screen, with the lines that it shows, up to the line of two dots."""
    found: list[tuple[str, list[str]]] = []
    for line in page.partition("## Where to go on")[0].splitlines():
        if line.startswith("    $ "):
            found.append((line[6:], []))
        elif line.startswith("    ") and found:
            found[-1][1].append(line[4:])
    return found


def is_shown(shown: list[str], came: list[str]) -> bool:
    """Whether lines came as they are shown; how many bytes of a user's own design were taken, and its date, may
    differ."""
    lines = shown[:-1] if shown[-1:] == [".."] else shown
    own = r"(?<=^taken )\d+$|(?<= of )[0-9/]{10} [0-9:]{8}$"
    first, wanted = ([re.sub(own, "", it) for it in them] for them in (came[: len(lines)], lines))
    return first == wanted and (len(lines) < len(shown) or len(came) == len(shown))


def made(folder: str) -> str:
    """The path of the release, which is made twice."""
    both = [run(folder, [RELEASE, it]) for it in ("one", "two")]
    names = [it.out.decode().split("  ")[-1].strip() for it in both]
    for came, name in zip(both, names):
        is_so = came.status == 0 and re.fullmatch(r"(one|two)/x7-[0-9.]+-x86_64-linux\.tar\.gz", name) is not None
        tally.check("a release is made", is_so, came)
    paths = [os.path.join(folder, it) for it in names]
    data = [open(it, "rb").read() for it in paths]
    tally.check("two releases are the same bytes", data[0] == data[1])
    said = f"{hashlib.sha256(data[0]).hexdigest()}  {names[0]}\n".encode()
    tally.same("it says its sum", both[0].out, said)
    return paths[0]


def unpacked(path: str, folder: str) -> str:
    """The folder of the release, unpacked in an empty one."""
    os.mkdir(folder)
    with tarfile.open(path) as tar:
        entries = tar.getmembers()
        tar.extractall(folder)
    tops = {it.name.split("/")[0] for it in entries}
    tally.same("it has one folder", tops, {os.path.basename(path)[: -len(".tar.gz")]})
    tally.check("no user and one time", {(it.uid, it.gid, it.uname) for it in entries} == {(0, 0, "")}, entries[0])
    tally.same("one time", len({it.mtime for it in entries}), 1)
    return os.path.join(folder, *tops)


def check_sums(place: str) -> None:
    """The sums of a release are those of its files, of each."""
    lines = open(os.path.join(place, "SHA256SUMS"), encoding="utf-8").read().splitlines()
    listed = {line[66:]: line[:64] for line in lines}
    below = [os.path.join(at, it) for at, _, names in os.walk(place) for it in names]
    plain = {os.path.relpath(it, place): it for it in below if not os.path.islink(it)}
    tally.same("the files with a sum", sorted(listed), sorted(set(plain) - {"SHA256SUMS"}))
    wrong = [it for it in listed if hashlib.sha256(open(plain[it], "rb").read()).hexdigest() != listed[it]]
    tally.same("files with another sum", wrong, [])
    proved = open(os.path.join(place, "PROVED"), encoding="utf-8").read()
    is_so = re.search(r"(?m)^commit [0-9a-f]{40}\b.*\nkit \S+ ", proved) is not None
    tally.check("PROVED has the commit and the kit", is_so, proved)
    is_so = "given by X7" in proved or "proved and built by ./build" in proved
    tally.check("PROVED says whose program it is", is_so, proved)


def first_screen(place: str, home: str) -> None:
    """README's first screen, as one who unpacked the release does it, with a design of his own."""
    pages, python = os.path.join(place, "share", "doc", "x7"), os.path.join(home, "python")
    os.makedirs(python)
    os.symlink(sys.executable, os.path.join(python, "python3"))
    own = {"PATH": os.path.join(place, "bin") + os.pathsep + python, "HOME": home}
    part = os.path.join(place, "share", "x7", "parts", "xc7a35t.part")
    plan = run(home, [X7, "plan", "full", part, put_file(home, "design.frames", FRAMES)])
    data = plan.out
    work = os.path.join(home, "work")
    shutil.copytree(pages, work)
    put_file(work, "design.bit", header(len(data), "7a35tcsg324") + data)
    commands = shown_commands(open(os.path.join(pages, "README.md"), encoding="utf-8").read())
    tally.check("README shows commands", len(commands) >= 5 and any("design.bit" in it for it, _ in commands), commands)
    for command, shown in commands:
        words, out = ["/bin/sh", "-c", command], subprocess.PIPE
        done = subprocess.run(words, cwd=work, env=own, stdin=subprocess.DEVNULL, stdout=out, stderr=subprocess.STDOUT)
        came = done.stdout.decode()
        tally.check(command, is_shown(shown, came.splitlines()), came[:400])


with tempfile.TemporaryDirectory() as name:
    wrong: list[list[str]] = [[], ["a", "b"], ["--other", "a"]]
    for given in wrong:
        refused = run(name, [RELEASE, *given])
        tally.same(f"release {given}", (refused.status, refused.err.count(b"\n"), refused.out), (2, 1, b""))
    if not X7:
        tally.skip("a release: x7 isn't built")
    elif not shutil.which("rt") or not shutil.which("git"):
        tally.skip("a release: rt and git aren't at hand")
    else:
        os.environ["X7"] = X7
        first = unpacked(made(name), os.path.join(name, "empty"))
        check_sums(first)
        first_screen(first, os.path.join(name, "home"))
tally.end()
