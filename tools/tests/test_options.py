#!/usr/bin/env python3
"""Tests the words of a command line: options at any place and in both forms, standard input, and what is refused."""
from __future__ import annotations

import os
import subprocess
import sys
import tempfile

from casefiles import TOOLS, Tally
import streams as s
from x7options import given
from x7run import Refused, asks_help

FORMS = ("A B", "--bits A")

tally = Tally()


def taken(words: str) -> tuple[list[str], dict[str, str]]:
    """What words give, of a tool that takes `--part P`, `--size N`, `--bits` and several `--header N`; of these all."""
    them = given(words.split(" "), FORMS, valued=["part", "size"], plain=["bits"], many=["header"])
    return them.words, {name: " ".join(values) for name, values in them.options.items()}


def refused(words: str) -> str:
    """Why words are refused, or nothing."""
    try:
        taken(words)
    except Refused as why:
        return str(why)
    return ""


def places() -> None:
    """Options stand at any place, and their value after a blank or '='."""
    for words in ("--part p a b", "a --part p b", "a b --part p", "--part=p a b", "a --part=p b", "a b --part=p"):
        tally.same(words, taken(words), (["a", "b"], {"part": "p"}))
    tally.same("two options", taken("--bits a --size=3 b"), (["a", "b"], {"bits": "", "size": "3"}))
    tally.same("several", taken("--header 4 a --header=6"), (["a"], {"header": "4 6"}))
    tally.same("a value with '='", taken("--part=a=b c"), (["c"], {"part": "a=b"}))
    tally.same("an empty value", taken("--part= c"), (["c"], {"part": ""}))
    tally.same("a value that looks like an option", taken("--part --bits"), ([], {"part": "--bits"}))
    tally.same("'--' ends the options", taken("--bits -- --part -x"), (["--part", "-x"], {"bits": ""}))
    tally.same("one dash is a word", taken("-p a -1:b"), (["-p", "a", "-1:b"], {}))
    tally.same("'-' is a word", taken("- --part -"), (["-"], {"part": "-"}))


def wrong() -> None:
    """Words that are refused."""
    for words in ("--other a", "a --part", "--bits=1 a", "--=p"):
        said = refused(words)
        is_so = said.startswith("usage: ") and said.count(" --help says more") == 1
        tally.check(f"{words} is refused", is_so, said)
    tally.same("an option twice", refused("--part p --part=q"), "--part stands twice")


def helps() -> None:
    """Where help is asked for."""
    cases = (("--help", True), ("-h", True), ("a --help", True), ("--part -h", True), ("-- -h", False), ("help", False))
    for words, is_so in cases:
        tally.same(f"help in '{words}'", asks_help(words.split()), is_so)


def piped(words: list[str], data: bytes, folder: str) -> subprocess.CompletedProcess[bytes]:
    """A run of a tool that gets data through a pipe, with a folder for its temporary files."""
    where = {**os.environ, "TMPDIR": folder}
    words = [sys.executable, os.path.join(TOOLS, words[0]), *words[1:]]
    return subprocess.run(words, input=data, stdout=subprocess.PIPE, stderr=subprocess.PIPE, env=where)


def standard_input(folder: str) -> None:
    """A stream that comes through a pipe, and one that is named twice."""
    data, out, temporary = s.bit(s.compressed()), os.path.join(folder, "small.part"), os.path.join(folder, "temporary")
    os.mkdir(temporary)
    for words in (["part", "-", out], ["part", "-", "-", "small"]):
        done = piped(words, data, temporary)
        tally.check(f"{words}", done.returncode == 0 and b"3 rows, 25 frames" in done.stderr, done.stderr)
    with open(out, encoding="ascii") as file:
        tally.same("standard output", done.stdout.decode().replace("small", "7a35tcpg236"), file.read())
    done = piped(["part", "-", out], data[:99], temporary)
    is_so = done.returncode == 2 and done.stderr.startswith(b"part: -: its header tells of ")
    tally.check("standard input that is cut", is_so, done.stderr)
    done = piped(["frames", "differ", "-", "-"], b"x", temporary)
    tally.check("standard input twice", done.returncode == 2 and b"(-) is named twice" in done.stderr, done.stderr)
    tally.same("no copy is left", os.listdir(temporary), [])


places()
wrong()
helps()
with tempfile.TemporaryDirectory() as place:
    standard_input(place)
tally.end()
