#!/usr/bin/env python3
"""Tests ./build in a small repository, with a kit whose prover is a script: the order, what is kept, an interrupt, and
each way to fail."""
from __future__ import annotations

import fcntl
import os
import pty
import re
import shutil
import signal
import struct
import subprocess
import sys
import tempfile
import termios
import time
from typing import Any

from casefiles import TOP, Tally

KIT = "rattle-kit-1 logic 0123"
WAITS = "another call builds x7: this one waits for it\n"
# what hasn't ended by then hangs, however busy the machine is
SECONDS = 300
# A prover: it says which crate it is given, does as the crate's folder asks, and writes the crate's text in place of a
# library.
PROVER = """#!/bin/sh
crate=$3
for last; do :; done
echo "$crate" >> "$(dirname "$0")/../proved"
echo $$ > "$(dirname "$0")/../pid"
echo "what is said of $crate"
[ -e refuses ] && exit 1
[ -e stops ] && exit 3
[ -e killed ] && kill -KILL $$
[ -e waits ] && { echo half > "$last"; sleep 1000; }
cat src/*.rt > "$last"
"""
LINKER = """#!/bin/sh
[ -e "$(dirname "$0")/no_link" ] && exit 1
while [ "$1" != -o ]; do shift; done
cat "$3" > "$2"
"""


class Room:
    """A repository of three crates, one on another, and a kit."""

    def __init__(self, folder: str) -> None:
        self.folder = folder
        self.kit = os.path.join(folder, "kit")
        self.top = os.path.join(folder, "top")  # the repository
        self.put("kit/KIT-ID", KIT + "\n")
        finder = f"#!/bin/sh\necho {self.kit}/START-HERE.md\n"
        for name, text in (("bin/rt", finder), ("bin/rattle", PROVER), ("bin/rattle-link", LINKER)):
            self.put(f"kit/{name}", text, 0o755)
        self.put("top/crates.txt", "# crates\nx7_low: memchr\nx7_high: x7_low\nx7: x7_high x7_low\nx7_other: x7_low\n")
        self.put("top/README.md", f"It is proved with the kit that `rt version` calls `{KIT}`.\n")
        for name, root in (("x7_low", "lib"), ("x7_high", "lib"), ("x7", "main"), ("x7_other", "lib")):
            self.put(f"top/crates/{name}/src/{root}.rt", f"{name} 1\n")
        shutil.copy(os.path.join(TOP, "build"), os.path.join(self.top, "build"))
        self.environment = {**os.environ, "PATH": f"{self.kit}/bin:{os.environ['PATH']}"}

    def path(self, name: str) -> str:
        """The path of a file of the room."""
        return os.path.join(self.folder, name)

    def put(self, name: str, text: str, mode: int = 0o644) -> None:
        """Writes a file of the room."""
        os.makedirs(os.path.dirname(self.path(name)), exist_ok=True)
        with open(self.path(name), "w", encoding="utf-8") as file:
            file.write(text)
        os.chmod(self.path(name), mode)

    def get(self, name: str) -> str:
        """The text of a file of the room."""
        with open(self.path(name), encoding="utf-8") as file:
            return file.read()

    def start(self, *words: str, **how: Any) -> subprocess.Popen[str]:
        """Starts a build."""
        given: dict[str, Any] = {"env": self.environment, "stdin": subprocess.DEVNULL, "stdout": subprocess.PIPE}
        given.update({"stderr": subprocess.PIPE, "universal_newlines": True, **how})
        command = [sys.executable, os.path.join(self.top, "build"), *words]
        started: subprocess.Popen[str] = subprocess.Popen(command, **given)
        return started

    def start_waiting(self, crate: str, version: int) -> subprocess.Popen[str]:
        """Starts a build after a change of this crate, which waits where its library is half made."""
        self.put(f"top/crates/{crate}/waits", "")
        self.put(f"top/crates/{crate}/src/lib.rt", f"{crate} {version}\n")
        os.remove(self.path("kit/proved"))
        return self.start()

    def build(self, *words: str, **how: Any) -> tuple[int, str, list[str]]:
        """Builds, and gives the status, what was said, and the crates that were proved meanwhile."""
        if os.path.exists(self.path("kit/proved")):
            os.remove(self.path("kit/proved"))
        started = self.start(*words, **how)
        said = started.communicate(timeout=SECONDS)[1]
        return started.returncode, said, self.proved()

    def proved(self) -> list[str]:
        """The crates that the prover was called for, in their order."""
        return self.get("kit/proved").split() if os.path.exists(self.path("kit/proved")) else []

    def wait_for_half(self, crate: str) -> bool:
        """Waits until the prover has half made the library of this crate; whether it came to that."""
        library = f"top/crates/x7/out/build/{crate}/{crate}.rlib"
        for _ in range(10 * SECONDS):
            if os.path.exists(self.path(library)) and self.get(library) == "half\n":
                return True
            time.sleep(0.1)
        return False

    def has_prover(self) -> bool:
        """Whether the prover that was called last runs."""
        try:
            os.kill(int(self.get("kit/pid")), 0)
        except ProcessLookupError:
            return False
        return True


def first_line(started: subprocess.Popen[str]) -> str:
    """The first line that a build says."""
    assert started.stderr, "it is a pipe"
    return started.stderr.readline()


def built(room: Room, tally: Tally) -> None:
    """What is built, in which order, and what a later call does."""
    status, said, proved = room.build()
    tally.same("a first build", (status, proved), (0, ["x7_low", "x7_high", "x7"]))
    tally.check("it says how far it is", "1 of 3 crates proved" in said and said.count("\n") == 4, said)
    tally.same("the program", room.get("top/crates/x7/out/x7"), "x7 1\n")
    times = [it.split()[0] for it in room.get("top/crates/x7/out/build/times").splitlines()]
    tally.same("what each took is written down", times, ["x7_low", "x7_high", "x7"])
    status, said, proved = room.build()
    tally.same("a second build", (status, said, proved), (0, "x7 is proved and built: nothing has changed since\n", []))
    room.put("top/crates/x7_high/src/lib.rt", "x7_high 2\n")
    tally.same("after a change", room.build()[2], ["x7_high", "x7"])
    room.put("top/crates/x7/out/x7", "another's\n")
    tally.same("where another program stands in its place", room.build()[2], ["x7"])
    tally.same("the program again", room.get("top/crates/x7/out/x7"), "x7 1\n")


def on_terminal(room: Room, tally: Tally) -> None:
    """On a terminal of 40 columns one line moves, and tells the minutes that are left."""
    room.put("top/crates/x7_low/src/lib.rt", "x7_low 1, on a terminal\n")
    ours, theirs = pty.openpty()
    fcntl.ioctl(theirs, termios.TIOCSWINSZ, struct.pack("HHHH", 24, 40, 0, 0))
    started = room.start(stderr=theirs)
    os.close(theirs)
    said = b""
    while True:
        try:
            said += os.read(ours, 1000)
        except OSError:
            break
    os.close(ours)
    started.communicate(timeout=SECONDS)
    *lines, last = said.decode().strip().split("\r\n")
    tally.same("on a terminal, status", started.returncode, 0)
    tally.check("on a terminal, the line", all(len(it) < 40 for it in "".join(lines).split("\r")), lines)
    # how many minutes are left depends on the processors
    minutes = re.search("2 of 3 crates proved, (less than a|about [0-9]+) min", lines[0])
    tally.check("on a terminal, the minutes", minutes, lines)
    tally.check("on a terminal, the end", re.match("x7 was proved and built in [0-9]+ min", last), last)


def interrupted(room: Room, tally: Tally) -> None:
    """An interrupt leaves nothing running, and nothing half made is taken for whole."""
    started = room.start_waiting("x7_high", 3)
    tally.check("the build is under way", room.wait_for_half("x7_high"))
    waiting = room.start()
    tally.same("a second call waits", first_line(waiting), WAITS)
    waiting.send_signal(signal.SIGTERM)
    said = waiting.communicate(timeout=SECONDS)[1]
    tally.check("a second call is interrupted", waiting.returncode == 130, said)
    started.send_signal(signal.SIGTERM)
    said = started.communicate(timeout=SECONDS)[1]
    tally.same("an interrupt, status", started.returncode, 130)
    tally.check("an interrupt is said", said.endswith("the next call goes on\n"), said)
    tally.same("an interrupt leaves a prover running", room.has_prover(), False)
    os.remove(room.path("top/crates/x7_high/waits"))
    room.put("top/crates/x7_high/src/lib.rt", "x7_high 2\n")
    status, _, proved = room.build()
    tally.same("the source of before the interrupt is built anew", (status, proved), (0, ["x7_high"]))
    tally.same("its library is whole", room.get("top/crates/x7/out/build/x7_high/x7_high.rlib"), "x7_high 2\n")


def killed(room: Room, tally: Tally) -> None:
    """A call after one that was killed waits for what that one left."""
    started = room.start_waiting("x7_low", 2)
    tally.check("the build is under way again", room.wait_for_half("x7_low"))
    started.kill()
    started.communicate()
    os.remove(room.path("top/crates/x7_low/waits"))
    later = room.start()
    tally.same("a call after one that was killed waits", first_line(later), WAITS)
    os.killpg(int(room.get("kit/pid")), signal.SIGTERM)
    later.communicate(timeout=SECONDS)
    library = room.get("top/crates/x7/out/build/x7_low/x7_low.rlib")
    tally.same("and goes on", (later.returncode, library), (0, "x7_low 2\n"))


def failing(room: Room, tally: Tally) -> None:
    """Each way to fail: status 1, why, and that a later call goes on."""
    ways = [("refuses", "x7_high was refused"), ("stops", "the prover stopped with status 3")]
    for way, why in [*ways, ("killed", "the prover was killed")]:
        room.put("top/crates/x7_high/src/lib.rt", f"x7_high {way}\n")
        room.put(f"top/crates/x7_high/{way}", "")
        status, said, proved = room.build()
        last = said.split("\n")[-2]
        tally.same(f"a crate that {way}, status", (status, proved), (1, ["x7_high"]))
        is_said = last.startswith("x7 was not built: x7_high") and why in last
        tally.check(f"a crate that {way}, why", is_said and "what is said of x7_high\n" in said, said)
        os.remove(room.path(f"top/crates/x7_high/{way}"))
    room.put("kit/bin/no_link", "")
    before = room.get("top/crates/x7/out/x7")
    status, said, proved = room.build()
    tally.same("no link, status", (status, proved), (1, ["x7_high", "x7"]))
    tally.check("no link, why", "x7 is proved but was not linked" in said, said)
    tally.same("no link leaves the program", room.get("top/crates/x7/out/x7"), before)
    os.remove(room.path("kit/bin/no_link"))
    tally.same("the next call goes on", room.build()[2], ["x7"])


def elsewhere(room: Room, tally: Tally) -> None:
    """Where the kit is missing or another one, where nothing can be written or read, and words that it doesn't take."""
    status, said, proved = room.build("--fast")
    tally.same("words, status", (status, said, proved), (2, "build: it takes no words; --help says what it does\n", []))
    tally.same("--help", room.build("--help"), (0, "", []))
    room.put("top/crates/x7/src/main.rt", "x7 2\n")
    path = f"{room.folder}/none"
    status, said, _ = room.build(env={**os.environ, "PATH": path})
    tally.same("no rt", (status, said), (1, "x7 was not built: there is no `rt`; put the kit's bin/rt on the path\n"))
    room.put("kit/KIT-ID", "rattle-kit-2 logic 0123\n")
    status, said, _ = room.build()
    names = f"the kit here is rattle-kit-2 logic 0123, and README names {KIT}: "
    tally.check("another kit is said", status == 0 and names in said, said)
    closed = room.start(stderr=None, preexec_fn=lambda: os.close(2))
    tally.same("a closed standard error", closed.communicate(timeout=SECONDS) and closed.returncode, 0)
    room.put("top/crates/x7/src/main.rt", "x7 3\n")
    shutil.rmtree(room.path("top/crates/x7/out/build/x7_low"))
    os.remove(room.path("top/crates/x7/out/build/x7_low.log"))
    os.mkdir(room.path("top/crates/x7/out/build/x7_low.log"))
    status, said, _ = room.build()
    is_line = said.endswith("x7_low.log: Is a directory\n") and "Traceback" not in said
    tally.check("a file that can't be written", status == 1 and is_line, said)


tally = Tally()
with tempfile.TemporaryDirectory(prefix="x7-build-") as folder:
    room = Room(folder)
    for each in (built, on_terminal, interrupted, killed, failing, elsewhere):
        each(room, tally)
tally.end()
