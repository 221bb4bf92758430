"""How a tool of this folder begins and ends: its files, its lines on standard error, and its status."""
from __future__ import annotations

import os
import re
import shutil
import sys
from typing import Any, Callable, NoReturn

HERE = os.path.dirname(os.path.realpath(__file__))
TOP = os.path.dirname(HERE)
IS_INSTALLED = os.path.basename(HERE) != "tools"
# What stands before the name of a tool where a user calls it: in the repository its folder, and where the tools were
# installed what `./install` puts before the name.
CALLED = "x7-" if IS_INSTALLED else "tools/"
# What is said where x7 isn't found.
NO_PROGRAM = (
    "there is no x7 on the path, and X7 in the environment names none" if IS_INSTALLED else
    "there is no x7: ./build proves and builds it, or X7 in the environment names one"
)


class Refused(Exception):
    """What a tool can't take, as a sentence."""


def own_name() -> str:
    """The name of the tool that runs, as a user calls it and as it signs its lines."""
    name = os.path.basename(sys.argv[0])
    return CALLED + name if IS_INSTALLED and not name.startswith(CALLED) else name


def usage(*forms: str) -> Refused:
    """The refusal of a command line, which says the forms that the tool takes: each the words after its name."""
    name = own_name()
    return Refused(f"usage: {', or '.join(f'{name} {it}' for it in forms)} ({name} --help says more)")


def program(given: str | None = None) -> str | None:
    """The path of x7, or none: the one given, or the one that X7 in the environment names; else the built one of this
    repository, or, where the tools were installed, the one on the path."""
    usual = shutil.which("x7") if IS_INSTALLED else os.path.join(TOP, "crates", "x7", "out", "x7")
    path = given or os.environ.get("X7") or usual
    return os.path.realpath(path) if path and os.path.isfile(path) and os.access(path, os.X_OK) else None


def wanted_program(given: str | None = None) -> str:
    """The path of x7, of a tool that can do nothing without it: where there is none, a refusal that says what to do."""
    named, path = given or os.environ.get("X7"), program(given)
    if not path:
        raise Refused(f"x7 isn't at {named}" if named else NO_PROGRAM)
    return path


def say(line: str) -> None:
    """Says a line on standard error, where it is open."""
    if sys.stderr is not None:
        try:
            print(shown(line), file=sys.stderr, flush=True)
        except (OSError, ValueError):
            pass


def sign(line: str) -> None:
    """Says a line on standard error with the tool's name before it."""
    say(f"{own_name()}: {line}")


def write_out(data: str | bytes) -> None:
    """Writes a text or bytes to standard output, whole, or refuses. Of a file's name what isn't UTF-8 is shown as an
    escape."""
    if sys.stdout is None:
        raise Refused("standard output is closed: nothing was written")
    if isinstance(data, bytes) and sys.stdout.isatty():
        raise Refused("standard output is a terminal, and this is no text: send it to a file, > FILE")
    try:
        sys.stdout.buffer.write(shown(data).encode("utf-8", "backslashreplace") if isinstance(data, str) else data)
        sys.stdout.buffer.flush()
    except (OSError, ValueError) as error:
        # what is left in the buffer must not fail once more at the end
        os.dup2(os.open(os.devnull, os.O_WRONLY), 1)
        raise Refused(f"standard output takes no more: {getattr(error, 'strerror', None) or error}") from None


# The folder of the copy of standard input, where a word `-` asked for it.
COPIED: list[Any] = []
# How many bytes of standard input are taken: those of the largest listing that x7 takes.
MOST_INPUT = 1 << 28


def standard_input() -> str:
    """The path of a copy of standard input, which can be read again and by another program, and is removed at the end.
    The name of its file is `-`, and every line that is said shows it so."""
    import tempfile  # here alone: it is slow to load, and few calls take standard input

    if COPIED:
        raise Refused("standard input (-) is named twice, and can be read once")
    if sys.stdin is None:
        raise Refused("standard input (-) is closed")
    COPIED.append(tempfile.TemporaryDirectory(prefix="x7-"))
    path = os.path.join(COPIED[0].name, "-")
    with open(path, "wb") as file:
        shutil.copyfileobj(sys.stdin.buffer, Limited(file))
    return path


class Limited:
    """A file that takes no more bytes than are taken of standard input."""

    def __init__(self, file: Any) -> None:
        # the file that gets the bytes, and how many more it may
        self.file, self.left = file, MOST_INPUT

    def write(self, data: bytes) -> int:
        """Writes bytes, or refuses them."""
        self.left -= len(data)
        if self.left < 0:
            raise Refused(f"standard input (-) has more than {MOST_INPUT} bytes")
        return int(self.file.write(data))


def shown(text: str) -> str:
    """A text in which the copy of standard input has the name that the user gave it."""
    return text.replace(os.path.join(COPIED[0].name, "-"), "-") if COPIED else text


def read_file(path: str) -> bytes:
    """The bytes of a file."""
    try:
        with open(path, "rb") as file:
            return file.read()
    except (OSError, ValueError) as error:
        raise Refused(f"{path}: {getattr(error, 'strerror', None) or error}") from None


def write_file(path: str, data: str | bytes) -> None:
    """Writes a file as a whole: under another name first, so that a failure leaves what was there."""
    data = data.encode() if isinstance(data, str) else data
    try:
        if os.path.lexists(path) and not os.path.isfile(path):
            # a pipe or a device keeps its name
            with open(path, "wb") as file:
                file.write(data)
            return
        kept = os.path.realpath(path)
        new = f"{kept}.new-{os.getpid()}"
        try:
            with open(new, "wb") as file:
                file.write(data)
            os.replace(new, kept)
        finally:
            if os.path.exists(new):
                os.remove(new)
    except (OSError, ValueError) as error:
        raise Refused(f"{path}: {getattr(error, 'strerror', None) or error}") from None


def open_standard_files() -> None:
    """Gives the system's null file to each standard file that the caller closed, so that no file opened later takes its
    place."""
    while True:
        number = os.open(os.devnull, os.O_RDWR)
        if number > 2:
            os.close(number)
            return


def as_called(document: str) -> str:
    """A tool's document, in which tools are named as a user calls them; what stands beside a call stays in its
    column."""
    blanks = " " * (len("tools/") - len(CALLED))
    return re.sub(r"tools/(.*?)(  +|$)", lambda it: CALLED + it[1] + (it[2] and it[2] + blanks), document, flags=re.M)


def asks_help(words: list[str]) -> bool:
    """Whether the words of a command line ask for help: `--help` or `-h`, before a word `--`."""
    options = words[: words.index("--")] if "--" in words else words
    return "--help" in options or "-h" in options


def run(main: Callable[[list[str]], int | None], document: str) -> NoReturn:
    """Runs a tool's `main` with the words of its command line, and ends with its status: 2 and a line for what is
    refused. `--help` shows the tool's document."""
    open_standard_files()
    try:
        if asks_help(sys.argv[1:]):
            write_out(as_called(document.strip()) + "\n")
            sys.exit(0)
        sys.exit(main(sys.argv[1:]) or 0)
    except Refused as refused:
        sign(str(refused))
    except OSError as error:
        sign(f"{error.filename or 'input'}: {error.strerror or error}")
    except MemoryError:
        sign("no memory")
    except KeyboardInterrupt:
        sign("interrupted")
    sys.exit(2)
