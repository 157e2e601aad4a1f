"""Counts that documents give, counted anew from the sources: how long the longest chain of crates is, how many lines a crate has, and how
many rows stand in a folder of tests. Each function `wrong_..` yields the places in a text at which another number stands, with what."""
import functools
import pathlib
import re

ROOT = pathlib.Path(__file__).resolve().parent.parent
# A crate is to have at most so many lines; docs/PROGRESS.md lists those that have more.
MOST_LINES = 1_500
LISTS = {
    crate: libraries.split()
    for crate, libraries in re.findall(r"^([a-z0-9_]+)[^#:\n]*:([^#\n]*)", (ROOT / "crates.txt").read_text(), re.MULTILINE)
}
CHAIN = re.compile(r"longest\s+chain(?:\s+of\s+crates)?\s+(?:has|is)\s+(\d+)")
CRATES = re.compile(r"[Tt]here\s+are\s+(\d+)\s+crates")
LONG = re.compile(r"`(\w+)`\s+\((\d,\d{3})(?:\s+lines)?\)|`(\w+)`\s+has\s+(\d,\d{3})\s+lines")
LIKE = re.compile(r"\b(\d+)\s+(?:have\s+their\s+like\s+here|of\s+the\s+Rust\s+crate's\s+tests)")
OWN = re.compile(r"\b(\d+)\s+tests\s+of\s+this\s+folder\s+are\s+our\s+own")
ROWS = re.compile(r"\b([\d,]+)\s+(?:rows|lists|scripts|tests)\b[^.|`]{0,40}`(tests/(?:sim|scripts|sweeps|index|handles))`")


def number(text):
    return int(text.replace(",", ""))


@functools.cache
def chain(crate):
    """How many crates stand one above another up to this one."""
    return 1 + max((chain(library) for library in LISTS[crate] if library in LISTS), default=0)


@functools.cache
def lines_of(crate):
    """How many lines the sources of a crate have."""
    return sum(len(path.read_text().splitlines()) for path in (ROOT / "crates" / crate / "src").rglob("*.rt"))


@functools.cache
def rows_in(folder):
    """How many rows a folder of tests has: a row is NAME.in, several NAME.1.in, NAME.2.in .., NAME.sh, or NAME.script."""
    ends = (".in", ".sh", ".script")
    return len({path.parent / path.name.split(".")[0] for path in (ROOT / folder).rglob("*") if path.suffix in ends})


@functools.cache
def tests_with_like():
    """How many tests of the Rust crate have their like in tests/handles, by the table there."""
    here = (ROOT / "tests/handles/README.md").read_text().split("## Here")[1].split("\n## ")[0]
    return sum(map(int, re.findall(r"^\| [^|]* \| (\d+) \|", here, re.MULTILINE)))


def wrong_numbers(text):
    """Other numbers than those that are counted."""
    for match in CHAIN.finditer(text):
        if int(match.group(1)) != max(map(chain, LISTS)):
            yield match.start(), f"the longest chain has {max(map(chain, LISTS))} crates"
    for match in CRATES.finditer(text):
        if int(match.group(1)) != len(LISTS):
            yield match.start(), f"there are {len(LISTS)} crates"
    for match in LONG.finditer(text):
        crate, count = match.group(1) or match.group(3), match.group(2) or match.group(4)
        if crate in LISTS and number(count) != lines_of(crate):
            yield match.start(), f"{crate} has {lines_of(crate):,} lines"
    for match in LIKE.finditer(text):
        if int(match.group(1)) != tests_with_like():
            yield match.start(), f"{tests_with_like()} tests of the Rust crate have their like in tests/handles"
    for match in OWN.finditer(text):
        if int(match.group(1)) != rows_in("tests/handles") - tests_with_like():
            yield match.start(), f"{rows_in('tests/handles') - tests_with_like()} tests of tests/handles are our own"
    for match in ROWS.finditer(text):
        if number(match.group(1)) != rows_in(match.group(2)):
            yield match.start(), f"{match.group(2)} has {rows_in(match.group(2))} rows"


def wrong_list(text):
    """Crates that are too long and aren't listed."""
    listed = {match.group(1) for match in LONG.finditer(text)}
    for crate in LISTS:
        if lines_of(crate) > MOST_LINES and crate not in listed:
            yield 0, f"it doesn't list {crate}, which has {lines_of(crate):,} lines"
