#!/usr/bin/env python3
"""Tests the pages as pages: links, the front page, the number of words, facts that have one home, sentences that stand
on two pages, names and numbers of the sources, and the picture of a nest. Part of the gate; it needs Python alone.

  tools/docs pages
  tools/docs pages --words     prints the words of each page, generated parts aside

A fact has one home (`FACTS`); any other page may say it in one sentence, or one row of a table, and link to the home.
A run of words (`RUN`) stands on one page only. Code and generated parts do not count.

A line for each fault, and last `N passed, M failed`; the exit status is 0 if none failed.
"""
import re
import runpy
import sys
from typing import NamedTuple

sys.dont_write_bytecode = True
import definitions
import generated
import specs

TOP = specs.TOP
# The most lines of a front page, and the most words of the README and docs/ together, generated parts aside.
FRONT_LINES = 90
MOST_WORDS = 32000
# How many words in a row stand on one page only.
RUN = 14
LINK = re.compile(r"\[[^\]]*\]\(([^)\s]+)\)")
TOOL = re.compile(r"`((?:tools|bindings)/[\w./-]*\w)")
# The toolchain's logic, as `rt version` names it.
LOGIC = re.compile(r"[0-9a-f]{16}")
SENTENCE = re.compile(r"(?<=[.:;])\s+")
# The pages for readers of the code, whose names are looked for in crates/.
CODE_PAGES = ("ALGORITHM.md", "ARCHITECTURE.md", "DEFINITIONS.md", "GLOSSARY.md", "PROMISES.md", "REFEREE.md")
COMMANDS = "energy ground wall bonds clusters report ranges maxcut check tjoin postman gen sample ensemble widths".split()
LIMIT = r"(?:2048|6144|2\^44|17592186044416|2\^29|536870912|2\^26|67108864|2\^22|4194304|12582912)"

# Numbers of a page that stand in the sources: the page with a phrase of it, and the file with the text behind it.
LIMITS = "crates/sg_base/specs/Limits.antt"
NUMBERS = (
    ("README.md", "2048 spins", LIMITS, "spin_limit = 2048"),
    ("README.md", "6144 bonds", LIMITS, "bond_limit = 6144"),
    ("README.md", "sum to 2^44", LIMITS, "sum_limit = 2 ^ 44"),
    ("README.md", "at most five for every two bonds", "crates/sg_check/specs/Packing.antt", "2 * length loops ≤ 5 * bond_count inst"),
    ("docs/BINDINGS.md", "up to 2^22 spins", LIMITS, "large_spin_limit = 2 ^ 22"),
    ("docs/COSTS.md", "12 k n + 8 k^2 bytes", "crates/sg_tjoin/specs/Allowance.antt", "terminals * (12 * nodes + 8 * terminals)"),
    ("docs/ALGORITHM.md", "12 k n + 8 k^2 bytes", "crates/sg_tjoin/specs/Allowance.antt", "terminals * (12 * nodes + 8 * terminals)"),
    ("docs/ALGORITHM.md", "allowance of 4 GiB", LIMITS, "table_limit = 2 ^ 32"),
    ("docs/ALGORITHM.md", "more than 16 arcs", "crates/sg_region_engine/src/open_hubs.rt", "MOST_ARCS: usize = 16;"),
    ("docs/ALGORITHM.md", "more than 128 arcs", "crates/sg_growth/src/hubs.rt", "MOST_ARCS: usize = 128;"),
    ("docs/ALGORITHM.md", "more than eight times the mean", "crates/sg_regions/src/layout.rt", "EVEN: i64 = 8;"),
    ("docs/ALGORITHM.md", "65536 + 12 (k + 4) (n + 2m) + k^3 / 48", "crates/sg_work/src/work.rt", ".saturating_add(4).saturating_mul(12)"),
    ("docs/ALGORITHM.md", "65536 + 12 (k + 4) (n + 2m) + k^3 / 48", "crates/sg_work/src/work.rt", "cube(count) / 48"),
    ("docs/DEFINITIONS.md", "2 * 2^2 = 8 blossoms", "crates/sg_work/specs/Counts.antt", "growth_limit terminals = 2 * terminals * terminals"),
)

passed = failed = 0


class Fact(NamedTuple):
    """A fact: the page where it is at home, what a sentence that says it matches, and the pages whose tables have the
    same rows for another purpose."""

    name: str
    home: str
    pattern: re.Pattern
    others: tuple = ()


FACTS = (
    Fact("what each crate is for", "docs/ARCHITECTURE.md", re.compile(r"^(?:\| |- )`(?:sg_\w+|ising2d_c)`[^|]*(?:\||:)")),
    Fact(
        "the limits",
        "docs/FORMATS.md",
        re.compile(rf"(?:limit|at most|up to|no more than|above|past|beyond)\b.*{LIMIT}|{LIMIT}.*(?:limit|at most)"),
    ),
    Fact(
        "what each command answers",
        "README.md",
        re.compile(rf"^(?:\| |- )`(?:{'|'.join(COMMANDS)})[^`]*`(?: [|:])"),
        # The formats, the times, the functions of Python, the members of a report.
        ("docs/FORMATS.md", "docs/COSTS.md", "docs/REFERENCE.md", "docs/STUDIES.md"),
    ),
    Fact(
        "why loops prove",
        "README.md",
        re.compile(
            r"loop.* breaks .*\bone\b|breaks .*\bone\b.* loop|broken bonds .*at least half|"
            r"loops .* twice (?:its|the) (?:size|coupling)|twice .* coupling.* loops"
        ),
    ),
    Fact(
        "what a nest is",
        "docs/ALGORITHM.md",
        re.compile(r"quarter of (?:all|the) radii|\b[Rr]egions?\b.*\b(?:height|steep)|\bnest\b[*]* (?:is a list|has a region)|[Rr]egions? .*odd number of"),
    ),
)


def judge(good, what, page, line=""):
    global passed, failed
    passed += bool(good)
    failed += not good
    if not good:
        print(f"{page}:{line}: {what}" if line else f"{page}: {what}", flush=True)


def name_of(page):
    return str(page.relative_to(TOP))


def counted_pages():
    """The pages whose words count: the README and docs/."""
    return [TOP / "README.md", *sorted(TOP.glob("docs/*.md"))]


def read_pages():
    """The pages on which facts have a home."""
    return [*counted_pages(), TOP / "CONTRIBUTING.md", TOP / "SECURITY.md"]


def all_pages():
    folders = ("*.md", "docs/*.md", "tools/*.md", "examples/**/*.md", "bindings/python/*.md")
    return [page for folder in folders for page in sorted(TOP.glob(folder))]


def words(page):
    return len(generated.without(page.read_text(encoding="utf-8")).split())


def prose(page):
    """The lines of a page with their numbers, without generated parts and code."""
    fenced = False
    for number, line in enumerate(generated.without(page.read_text(encoding="utf-8")).splitlines(), 1):
        if line.startswith("```"):
            fenced = not fenced
        elif line and not fenced and not line.startswith(("    ", "#", "|--", "<")):
            yield number, line


def sentences(line):
    """The sentences of a line; a row of a table is one."""
    return [line] if line.startswith("|") else SENTENCE.split(line)


def marks(path):
    """What a link may name behind `#` on a page: its headings and its anchors."""
    text = path.read_text(encoding="utf-8")
    heads = [re.sub(r"[^\w\- ]", "", head.lower()).replace(" ", "-") for head in re.findall(r"^#+ (.*)$", text, re.M)]
    return set(heads) | set(re.findall(r'<a id="([^"]+)">', text))


def links():
    """No page of the repository has a dead link, and none names a tool that does not exist."""
    for page in all_pages():
        for number, line in enumerate(page.read_text(encoding="utf-8").splitlines(), 1):
            for target in LINK.findall(line):
                name, _, mark = target.partition("#")
                if "://" in name:
                    continue
                file = page.parent / name if name else page
                good = file.exists() and (not mark or file.is_dir() or mark in marks(file))
                judge(good, f"the link {target} leads nowhere", name_of(page), number)
            for name in TOOL.findall(line):
                judge((TOP / name).exists(), f"there is no {name}", name_of(page), number)


def front(known):
    """The README is a front page, with a row for each command and a definition that exists."""
    text = (TOP / "README.md").read_text(encoding="utf-8")
    count = len(text.splitlines())
    judge(count <= FRONT_LINES, f"a front page has at most {FRONT_LINES} lines", "README.md", count)
    rows = re.findall(r"^\| `(\w+)[^`]*` \| .* \| `(\w+)` \|$", text, re.M)
    defined = {key[2] for key in known.definitions if key[0] in ("sg_cli", "sg_draws")}
    judge([command for command, _ in rows] == COMMANDS, "its table has not each command once", "README.md")
    for command, name in rows:
        judge(name in defined, f"{command} has no definition {name}", "README.md")
    codes = known.definitions["sg_words", "Command", "command_named"].text
    named = re.findall(r'codes "(\w+)"', codes)
    judge(set(named) < set(COMMANDS), "a command of one word is not in COMMANDS", "tools/lib/pages.py")


def facts():
    """Each fact has one home."""
    for page in read_pages():
        lines = list(prose(page))
        for fact in FACTS:
            found = [number for number, line in lines for it in sentences(line) if fact.pattern.search(it)]
            good = name_of(page) in (fact.home, *fact.others) or len(found) <= 1
            where = ", ".join(map(str, found))
            judge(good, f"{fact.name}: more than a sentence (lines {where}); the home is {fact.home}", name_of(page))


def repeats():
    """No run of words stands on two pages."""
    first, told = {}, set()
    for page in read_pages():
        for number, line in prose(page):
            found = re.findall(r"[a-z0-9_]+", re.sub(r"\]\([^)]*\)", "]", line).lower())
            for at in range(len(found) - RUN + 1):
                run = tuple(found[at : at + RUN])
                other, place = first.setdefault(run, (page, number))
                if other != page and (number, place) not in told:
                    told.add((number, place))
                    judge(False, f"{' '.join(run[:8])} .. stands on {name_of(other)}:{place} too", name_of(page), number)
    judge(True, "", "")


def limits_in_prose(known):
    """A number of spins, bonds, samples or bytes that a sentence calls a limit is one."""
    allowed = {number.strip() for _, text in definitions.limits(known) for number in text.split("=")}
    allowed |= {f"{int(it):,}" for it in allowed if it.isdigit()}
    unit = re.compile(r"\blimits? (?:is|are|of) (\d[\d,]*|\d+ \* 2\^\d+|2\^\d+) (?:spins|bonds|nodes|edges|samples|columns|bytes)\b")
    for page in read_pages():
        for number, line in prose(page):
            for found in unit.findall(line):
                judge(found in allowed, f"{found} is no limit of crates/sg_base", name_of(page), number)


def names():
    """Each name of the code that a page for its readers has is there."""
    files = [file for kind in ("src/**/*.rt", "specs/**/*.antt") for file in TOP.glob(f"crates/*/{kind}")]
    known = set(re.findall(r"\w+", "\n".join(file.read_text(encoding="utf-8") for file in files)))
    known |= {file.stem for file in files} | {name for _, group in definitions.crates() for name, _ in group}
    for page in CODE_PAGES:
        for number, line in prose(TOP / "docs" / page):
            for found in re.findall(r"`([A-Za-z_]\w*(?:::\w+)*)`", line):
                missing = [part for part in found.split("::") if part not in known and not LOGIC.fullmatch(part)]
                judge(not missing, f"there is no {found} in crates/", f"docs/{page}", number)


def the_map():
    """The map of the crates has each crate once."""
    text = (TOP / "docs" / "ARCHITECTURE.md").read_text(encoding="utf-8")
    drawn = re.findall(r"\w+", "\n".join(re.findall(r"^    .*$", text.partition("## How an input flows")[0], re.M)))
    for _, group in definitions.crates():
        for name, _ in group:
            judge(drawn.count(name) >= 1, f"{name} is not on the map", "docs/ARCHITECTURE.md")


def numbers():
    """The numbers of pages that the sources have too are the same."""
    for page, phrase, file, text in NUMBERS:
        judge(phrase in (TOP / page).read_text(encoding="utf-8"), f"it does not say: {phrase}", page)
        judge(text in (TOP / file).read_text(encoding="utf-8"), f"{page} says {phrase!r}, and this file no longer has: {text}", file)


def pictures():
    """The picture of a nest is the one that its script makes, and the nest on it proves its T-join."""
    made = runpy.run_path(str(TOP / "docs" / "pictures" / "nest.py"))
    made["assert_proof"]()
    page = "docs/pictures/nest.svg"
    judge("\n".join(made["drawing"]()) + "\n" == (TOP / page).read_text(encoding="utf-8"), "it is not what nest.py draws", page)


def print_words():
    rows = [(name_of(page), words(page)) for page in counted_pages()]
    for name, count in rows:
        print(f"{count:6} {name}")
    print(f"{sum(count for _, count in rows):6} together, generated parts aside")


def main(named):
    if named == ["--words"]:
        print_words()
        return 0
    known = specs.Specs()
    links()
    front(known)
    facts()
    repeats()
    limits_in_prose(known)
    numbers()
    names()
    the_map()
    pictures()
    total = sum(words(page) for page in counted_pages())
    judge(total <= MOST_WORDS, f"the README and docs/ have {total} words, generated parts aside (at most {MOST_WORDS})", "docs/")
    print(f"{passed} passed, {failed} failed")
    return 1 if failed else 0


if __name__ == "__main__":
    sys.exit(main(sys.argv[1:]))
