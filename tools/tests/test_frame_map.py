#!/usr/bin/env python3
"""Tests tools/frame_map: the picture of docs, the addresses at the pointer, and what isn't drawn."""
from __future__ import annotations

import os
import tempfile
import xml.dom.minidom
from typing import Mapping

from casefiles import TOP, Tally, put_file
from calls import called, ran, shell_status
import x7formats as x7
from x7partfile import read_part

tally = Tally()
EXAMPLES = os.path.join(TOP, "examples")


def in_file(text: str, name: str) -> str:
    """The path of a file that holds this text."""
    return put_file(FOLDER, name, text)


def report(frames: Mapping[int, bytes], name: str = "chip") -> str:
    """The report of a device that holds these frames."""
    held = {far: words for far, words in frames.items() if any(words)}
    head = f"part {name}\ntaken 0\nend searching\nphase 7 done 1 gts 1 gwe 1\nreads 0\n"
    return f"{head}frames {len(held)}\n{x7.frames_text(held)}"


def refused(name: str, *words: str) -> None:
    """frame_map takes none of these words: status 2 and one line."""
    status, out, err = called("frame_map", *words)
    tally.check(name, status == 2 and not out and err.count("\n") == 1 and "Error" not in err, f"{status} {err!r}")


with tempfile.TemporaryDirectory() as FOLDER:
    path = os.path.join(EXAMPLES, "chip.part")
    part = read_part(path)
    before = x7.read_frames(os.path.join(EXAMPLES, "chip.frames"), part)
    after = {**before, **x7.read_frames(os.path.join(EXAMPLES, "chip_change.frames"), part)}
    one, two = in_file(report(before), "before.report"), in_file(report(after), "after.report")
    status, out, _ = called("frame_map", path, one, two)
    with open(os.path.join(TOP, "docs", "frames.svg"), "rb") as file:
        tally.check("the picture of PARTS", status == 0 and out == file.read())
    tally.check("it is XML", xml.dom.minidom.parseString(out).getElementsByTagName("title").length > 50)
    status, out, _ = called("frame_map", path, one)
    tally.check("one report", status == 0 and b"holds something: " in out and b"00000284: holds something" in out)
    good = x7.read_file(path).decode()
    for name, text in (
        ("minors over the limit", good.replace("minors = [128, 128]", "minors = [3000000000]", 1)),
        ("no rows", 'name = "chip"\nidcode = 1\n'),
        ("row is a number", 'name = "chip"\nidcode = 1\nrow = 7\n'),
        ("no name", good.replace('name = "chip"', "")),
        ("minors is a number", good.replace("minors = [128, 128]", "minors = 128", 1)),
        ("a text in minors", good.replace("[128, 128]", '["a"]', 1)),
        ("no TOML", "name = \n[["),
        ("an open list", good + "minors = [1,"),
        ("not UTF-8", "\x7f"),
        ("nothing", ""),
        ("a row twice", good + "\n[[row]]\nblock = 0\nhalf = 0\nrow = 0\nminors = [1]\n"),
        ("far is short", good.replace("frame_words", "far = [7]\nframe_words")),
        ("a wide far", good.replace("frame_words", "far = [12, 12, 8, 1, 3]\nframe_words")),
    ):
        refused(name, in_file(text, "bad.part"), one)
    refused("another part's report", path, in_file(report(before, "other"), "other.report"))
    refused("an address that isn't there", path, in_file(report({**before, 0xFFFFFFFF: b"\1" * 8}), "far.report"))
    refused("half a report", path, in_file(report(before)[:300], "half.report"))
    refused("an empty report", path, in_file("", "empty.report"))
    refused("a part for a report", path, path)
    refused("no such file", path, "/nowhere")
    wrong: list[list[str]] = [[], [path], [path, one, two, two]]
    for words in wrong:
        status, out, err = ran("frame_map", *words)
        tally.check(f"words {len(words)}", status == 2 and not out and err.count("\n") == 1, err)
    tally.same("standard output is closed", shell_status("frame_map", [path, one], ">&- 2>/dev/null"), 2)
    tally.same("standard output is full", shell_status("frame_map", [path, one], ">/dev/full 2>/dev/null"), 2)
    tally.check("help", b"tools/frame_map my.part" in ran("frame_map", "--help")[1])
tally.end()
