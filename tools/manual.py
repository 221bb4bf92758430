#!/usr/bin/env python3
"""Writes the manual page of the installed tools, x7-tools(1): what tools/README.md says of each, with the names that
`./install` gives them. `./install` runs it; python3 (3.8) and its library alone."""
from __future__ import annotations

import os
import re
import sys

HERE = os.path.dirname(os.path.realpath(__file__))
TOP = os.path.dirname(HERE)
# The tools that work on the repository, and aren't installed.
STAY = ("attack", "follow", "test")
# A row of the table of tools: its forms, each in backticks, and what they do.
ROW = re.compile(r"^\| (`.*?`) \| (.*) \|$", re.M)

PAGE = r"""{head}
.SH NAME
x7\-tools \- what stands between x7 and a board: tools beside x7(1)
.SH SYNOPSIS
.B x7\-TOOL
.RI [ OPTION ...]
.RI [ FILE ...]
.br
.B x7\-TOOL \-\-help
.SH DESCRIPTION
Each tool does its work with Python (3.8 or later) and, where it plays a stream, with
.BR x7 (1).
The result goes to standard output.
.BI x7\- TOOL " \-\-help"
says all of a tool.
Nothing was tried on a device.
.SS The tools
{tools}
.SH OPTIONS
{options}
.SH EXIT STATUS
.TP
.B 0
the result was written, and nothing is wrong
.TP
.B 1
something is wrong with what was looked at: a cause was named, a check failed, a frame is outside
.TP
.B 2
the tool can't take something: a last line on standard error says what, and no result is written
.SH ENVIRONMENT
.TP
.B X7
the program x7; where it is not set, the x7 on the path
.SH FILES
.TP
.I share/x7/parts
the shelf: a part file for each device that
.B x7\-part \-\-shelf
names
.TP
.I share/doc/x7
the pages: README.md, PARTS.md, BOARD.md on a board that doesn't start, FLOWS.md, FIELD.md, FORMATS.md, TOOLS.md; and
examples
.SH EXAMPLES
.TP
.B x7\-why design.bit
why a device doesn't start with this stream
.TP
.B x7 play \(dq$(x7\-part \-\-shelf xc7a35t)\(dq design.bit
the state in which a stream leaves a device of the shelf
.TP
.B x7\-frames differ \-\-bits before.bit after.bit
each bit of the frames in which two streams differ
.SH SEE ALSO
.BR x7 (1)
"""


def text_of(*path: str) -> str:
    """The text of a file of the repository."""
    with open(os.path.join(TOP, *path), encoding="utf-8") as file:
        return file.read()


def troff(text: str) -> str:
    """A text of a page for troff: what stands in backticks bold, and of a link its text."""
    text = re.sub(r"\[([^][]*)\]\([^)]*\)", r"\1", text).replace(r"\|", "|").replace("\\", r"\e").replace("-", r"\-")
    text = re.sub(r"`([^`]*)`", r"\\fB\1\\fR", text)
    return re.sub(r"^([.'])", r"\\&\1", text, flags=re.M)


def named(text: str) -> str:
    """A text in which the tools have their installed names."""
    names = "|".join(it for it in sorted(os.listdir(HERE)) if re.fullmatch(r"\w+", it))
    return re.sub(rf"`(?:tools/)?({names})\b(?!\.)", r"`x7-\1", text)


def rows() -> list[tuple[str, str]]:
    """The rows of the table of tools that are installed: the forms, and what they do."""
    found = ROW.findall(text_of("tools", "README.md"))
    return [(forms, what) for forms, what in found if re.match(r"`(\w+)", forms)[1] not in STAY]  # type: ignore[index]


def options() -> str:
    """What README says of the options of all tools."""
    lines = text_of("tools", "README.md").splitlines()
    return next(it for it in lines if it.startswith("Options stand"))


def page() -> str:
    """The manual page, with the date and the version of that of x7."""
    head = text_of("docs", "x7.1").split("\n", 1)[0].replace(".TH X7 1 ", ".TH X7\\-TOOLS 1 ", 1)
    tools = "\n".join(f".TP\n{troff(named(forms))}\n{troff(named(what))}" for forms, what in rows())
    return PAGE.format(head=head, tools=tools, options=troff(named(options())))


if __name__ == "__main__":
    sys.stdout.write(page())
