#!/usr/bin/env python3
"""The tables by which names are read back: where a register's or a command's name stands in a table.

x7_regs (src/named.rt) looks at a name's first two letters, its last one and its length, each with a weight; x7_listing
(src/asm/fast/write_pairs.rt) at its first four bytes, of which the byte after a short name is one, times a factor.
Weights and factor are those of these files, and are such that no two registers have one place, nor two commands.

    python3 bench/name_tables.py             compares the tables with those of the two files
    python3 bench/name_tables.py --print     writes them, and compares none
    python3 bench/name_tables.py --search    writes weights and a factor that serve, those of the files where they do,
                                             and the tables by these; where no weights do, those of a larger table

The names are those of tools/x7formats.py. Status 0 where the tables are those, 2 where they aren't, where two names
have one place (--search finds what to put), or for words that it doesn't take.
"""
from __future__ import annotations

import functools
import itertools
import random
import re
from typing import Callable, Iterator, Mapping, NamedTuple, Tuple

from measure import TOP, Refused, run
from x7formats import COMMANDS, REGISTERS
from x7run import write_out

REGS, LISTING = "crates/x7_regs/src/named.rt", "crates/x7_listing/src/asm/fast/write_pairs.rt"
SPECS = "crates/x7_regs/specs/Named.antt"
WEIGHTS, FACTOR = ("SECOND_WEIGHT", "LAST_WEIGHT", "LENGTH_WEIGHT", "PLACE_COUNT"), "SPREAD_FACTOR"
# a place in a table of x7_listing has PLACE_BITS bits, the highest of the WORD_BITS of a product
WORD_BITS, PLACE_BITS = 32, 6
ROW_SIZE = 16
# how many places a table of x7_regs may have: for some names no weights serve with the fewest
PLACE_COUNTS = (64, 128)
# one odd factor in 150,000 serves: where none of so many does, none is looked for any longer
MOST_FACTORS = 20_000_000


Key = Tuple[int, ...]


class Weights(NamedTuple):
    """How often a name's bytes and its length count in its place in a table of x7_regs; its first byte counts once."""

    second: int
    last: int
    length: int
    places: int  # how many places the table has


class Names(NamedTuple):
    """Names of which no two may have one place in a table of a file."""

    path: str
    table: str  # the table's name in the file
    numbers: Mapping[str, int]  # each number by its name
    after: str  # the byte after a name, where the file looks at it

    def keys(self) -> list[Key]:
        """What the place of each name is found by."""
        if self.path == REGS:
            return [(ord(it[0]), ord(it[1]), ord(it[-1]), len(it)) for it in self.numbers]
        return [(int.from_bytes((it + self.after).encode()[:4], "little"),) for it in self.numbers]


def by_letters(weights: Weights, key: Key) -> int:
    """The place of a name in a table of x7_regs, by its first two bytes, its last one, and its length."""
    first, second, last, length = key
    return (first + weights.second * second + weights.last * last + weights.length * length) % weights.places


def by_four_bytes(factor: int, key: Key) -> int:
    """The place of a name in a table of x7_listing, by its first four bytes as a number."""
    return key[0] * factor % (1 << WORD_BITS) >> WORD_BITS - PLACE_BITS


def all_names() -> list[Names]:
    """The names of each table."""
    registers = {name: number for number, name in enumerate(REGISTERS)}
    commands = {name: code for code, name in COMMANDS.items()}
    return [
        Names(REGS, "REGISTERS", registers, ""),
        Names(REGS, "COMMANDS", commands, ""),
        Names(LISTING, "REGISTERS", registers, " "),
        Names(LISTING, "COMMANDS", commands, "\n"),
    ]


def serves(place: Callable[[Key], int], keys: list[list[Key]]) -> bool:
    """Whether no two names of a table have one place."""
    for each in keys:
        taken = set()
        for key in each:
            at = place(key)
            if at in taken:
                return False
            taken.add(at)
    return True


def numbers_at(names: Names, place: Callable[[Key], int], size: int) -> list[int]:
    """The table: each number at the place of its name. It refuses two names that have one place."""
    result = [0] * size
    taken: dict[int, str] = {}
    for (name, number), key in zip(names.numbers.items(), names.keys()):
        at = place(key)
        if at in taken:
            both = f"{name} and {taken[at]} have one place"
            raise Refused(f"{names.path} {names.table}: {both}; name_tables.py --search finds weights or a factor")
        taken[at] = name
        result[at] = number
    return result


# ---- what the files have


@functools.lru_cache(maxsize=None)
def text_of(path: str) -> str:
    """The text of a file of the repository."""
    return (TOP / path).read_text(encoding="utf-8")


def constant_in(path: str, name: str) -> int:
    """The number of this name in a file."""
    found = re.search(rf"const {name}: \w+ = (\w+);", text_of(path))
    if not found:
        raise Refused(f"{path} has no number {name}")
    return int(found[1].replace("_", ""), 0)


def table_in(path: str, name: str) -> list[int]:
    """The table of this name in a file."""
    found = re.search(name + r": \[u8; \w+\] = \[(.*?)\];", text_of(path), re.S)
    if not found:
        raise Refused(f"{path} has no table {name}")
    return [int(number) for number in re.findall(r"\d+", found[1])]


def table_by(names: Names, weights: Weights, factor: int) -> list[int]:
    """The table of some names by these."""
    if names.path == REGS:
        return numbers_at(names, functools.partial(by_letters, weights), weights.places)
    return numbers_at(names, functools.partial(by_four_bytes, factor), 1 << PLACE_BITS)


def present() -> tuple[Weights, int]:
    """The weights and the factor of the files."""
    return Weights(*(constant_in(REGS, it) for it in WEIGHTS)), constant_in(LISTING, FACTOR)


# ---- what serves


def weights_to_try() -> Iterator[Weights]:
    """Those of x7_regs, and all others, in the smallest tables first."""
    yield present()[0]
    for places in PLACE_COUNTS:
        for second, last, length in itertools.product(range(1, places), repeat=3):
            yield Weights(second, last, length, places)


def factors_to_try() -> Iterator[int]:
    """That of x7_listing, and odd ones in no order, the same at each run."""
    yield present()[1]
    numbers = random.Random(7)
    for _ in range(MOST_FACTORS):
        yield numbers.getrandbits(WORD_BITS) | 1


def keys_of(path: str) -> list[list[Key]]:
    """By what the places of the names are found, for each table of a file."""
    return [it.keys() for it in all_names() if it.path == path]


def weights_that_serve() -> Weights:
    """The first weights that serve for x7_regs."""
    keys = keys_of(REGS)
    for weights in weights_to_try():
        if serves(functools.partial(by_letters, weights), keys):
            return weights
    raise Refused(f"no weights serve for {REGS}, in tables of {' or '.join(map(str, PLACE_COUNTS))} places")


def factor_that_serves() -> int:
    """The first factor that serves for x7_listing."""
    keys = keys_of(LISTING)
    for factor in factors_to_try():
        if serves(functools.partial(by_four_bytes, factor), keys):
            return factor
    raise Refused(f"no factor of {MOST_FACTORS} serves for {LISTING}")


# ---- what is asked


def tables_text(weights: Weights, factor: int) -> str:
    """The tables by these, as they stand in the files."""
    lines = []
    for names in all_names():
        numbers = table_by(names, weights, factor)
        lines.append(f"{names.path} {names.table}")
        for row in range(0, len(numbers), ROW_SIZE):
            lines.append("    " + ", ".join(f"{number:2}" for number in numbers[row : row + ROW_SIZE]) + ",")
    return "\n".join([*lines, ""])


def searched_text() -> str:
    """Weights and a factor that serve, and the tables by these."""
    weights, factor = weights_that_serve(), factor_that_serves()
    same = [" (as now)" if new == old else "" for new, old in zip((weights, factor), present())]
    digits = f"0x{factor >> 16:04X}_{factor & 0xFFFF:04X}"
    told = ", ".join(f"{name} {weight}" for name, weight in zip(WEIGHTS, weights))
    head = f"{REGS}, {SPECS}: {told}{same[0]}\n{LISTING}: {FACTOR} {digits}{same[1]}\n"
    return head + tables_text(weights, factor)


def compare() -> None:
    """Refuses a table of a file that is another one."""
    weights, factor = present()
    for names in all_names():
        if table_in(names.path, names.table) != table_by(names, weights, factor):
            raise Refused(f"{names.path} has another table {names.table}")


def main(words: list[str]) -> None:
    """Compares, prints or searches."""
    if words == ["--print"]:
        write_out(tables_text(*present()))
    elif words == ["--search"]:
        write_out(searched_text())
    elif words:
        raise Refused("usage: name_tables.py [--print | --search] (name_tables.py --help)")
    else:
        compare()
        write_out("the tables are these\n")


if __name__ == "__main__":
    run(main, __doc__)
