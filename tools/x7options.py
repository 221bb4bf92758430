"""The words of a tool's command line: options at any place, `--part P` or `--part=P`, and `-` for standard input."""
from __future__ import annotations

from typing import NamedTuple, Sequence

from x7run import Refused, standard_input, usage

STANDARD_INPUT = "-"
# what ends the options: each word after it is a file or another word, whatever it begins with
END = "--"


class Given(NamedTuple):
    """What a command line gives."""

    # the words that are no options, in their order
    words: list[str]
    # the values of each option that is given, by its name without dashes, in their order; empty where it takes none
    options: dict[str, list[str]]

    def has(self, name: str) -> bool:
        """Whether an option is given."""
        return name in self.options

    def value(self, name: str) -> str | None:
        """The value of an option, or none where it isn't given."""
        values = self.values(name)
        return values[0] if values else None

    def values(self, name: str) -> list[str]:
        """The values of an option that may stand more than once."""
        return self.options.get(name, [])


def given(
    words: Sequence[str],
    forms: Sequence[str],
    valued: Sequence[str] = (),
    plain: Sequence[str] = (),
    many: Sequence[str] = (),
) -> Given:
    """What the words of a command line give, of a tool with these options: such that take a value, such that take none,
    and such that take a value and may stand more than once. Any other option, one without its value and one that
    stands twice are refused; `forms` are what the tool takes, for the line that says so."""
    rest, found = list(words), Given([], {})
    while rest:
        word = rest.pop(0)
        if word == END:
            found.words.extend(rest)
            break
        if not word.startswith("--"):
            found.words.append(word)
            continue
        name, is_joined, value = word[2:].partition("=")
        if name not in (*valued, *plain, *many) or name in plain and is_joined:
            raise usage(*forms)
        if name in found.options and name not in many:
            raise Refused(f"--{name} stands twice")
        if name not in plain and not is_joined:
            if not rest:
                raise usage(*forms)
            value = rest.pop(0)
        values = found.options.setdefault(name, [])
        values += [] if name in plain else [value]
    return found


def input_file(word: str) -> str:
    """The path of an input that a word names: `-` is standard input, of which a copy is made."""
    return standard_input() if word == STANDARD_INPUT else word
