#!/usr/bin/env python3
"""Writes and tests the parts of the pages that list what the sources have: the definitions (docs/DEFINITIONS.md), the
crates (docs/ARCHITECTURE.md), the limits (docs/FORMATS.md) and the clauses of a run (docs/PROMISES.md). Part of the
gate; it needs Python alone.

  tools/docs definitions
  tools/docs definitions --write

The index of definitions has, for each public one, the first sentence of the comment above it, and the private ones by
file; tools/lib/specs.py says which are public. What a crate is for comes from crates.txt, and the limits from
crates/sg_base/specs/Limits.antt.

A line for each fault, and last `N passed, M failed`; the exit status is 0 if none failed.
"""
import re
import sys

sys.dont_write_bytecode = True
import generated
import specs

TOP = specs.TOP
PAGES = {"DEFINITIONS.md": ("index", "private"), "ARCHITECTURE.md": ("crates",), "FORMATS.md": ("limits",)}
# The limits that are of no interest to users: they bound numbers inside a computation.
INNER = ("forced_limit", "cost_limit", "text_limit")
# What happens beyond a limit, if the program has it.
BEYOND = {
    "spin_limit": "refused, 7",
    "bond_limit": "refused, 8",
    "sum_limit": "refused, 13",
    "input_limit": "refused, 1",
    "json_limit": "refused, 20",
    "sample_limit": "`usage`",
    "width_limit": "`usage`",
    "large_spin_limit": "refused, 7",
    "large_bond_limit": "refused, 8",
}
SENTENCE = re.compile(r"(?<=[a-z)`\]])\. (?=[A-Z`])")
WORDS = re.compile(r"`([^`]+)`")

passed = failed = 0


def judge(good, what, page):
    global passed, failed
    passed += bool(good)
    failed += not good
    if not good:
        print(f"{page}: {what}", flush=True)


def crates():
    """The groups of crates.txt, each with its crates and what they are for."""
    groups, last = [], None
    for line in (TOP / "crates.txt").read_text(encoding="utf-8").splitlines():
        head, crate = re.match(r"# ([a-z ]+)$", line), re.match(r"(\w+)[^:#]*:[^#]*(?:# (.*))?$", line)
        if head:
            groups.append((head[1], []))
        if crate:
            groups[-1][1].append((crate[1], crate[2] or ""))
    return groups


def crate_rows(group):
    """The table of a group of crates."""
    rows = dict(crates())[group]
    return ["| crate | what it is for |", "|---|---|", *(f"| `{name}` | {what} |" for name, what in rows)]


def value_of(text):
    """A limit as its definition has it, and as one number if that is another text."""
    power = text.replace("^", "**")
    number = str(eval(power, {"__builtins__": {}}))
    return text if text == number else f"{text} = {number}"


def limits(known):
    """The limits: what each bounds, its number, and its definition."""
    for it in known.definitions.values():
        if (it.crate, it.module) == ("sg_base", "Limits") and it.name not in INNER:
            yield it, value_of(it.text.rpartition("= ")[2].strip())


def limit_rows(known):
    rows = ["| limit | at most | beyond it | definition |", "|---|---|---|---|"]
    for it, number in limits(known):
        rows.append(f"| {it.comment} | {number} | {BEYOND.get(it.name, 'no proof')} | `{it.name}` |")
    return rows


def sentence_of(it):
    """The first sentence of the comment above a definition."""
    return SENTENCE.split(it.comment)[0]


def by_file(known, keys):
    """Definitions by crate, in the order of crates.txt, and in each by file."""
    for _, group in crates():
        for crate, _ in group:
            own = [known.definitions[key] for key in keys if key[0] == crate]
            files = sorted({it.file for it in own})
            if files:
                yield crate, [(file, sorted((it for it in own if it.file == file), key=lambda it: it.line)) for file in files]


def index(known):
    """The public definitions: a heading for each crate, a line for each file, an item for each definition."""
    lines = []
    for crate, files in by_file(known, known.public()):
        lines += ["", f"### {crate}"]
        for file, own in files:
            lines += ["", f"[{own[0].module}](../{file.relative_to(TOP)})", ""]
            lines += [f"- `{it.name}`: {sentence_of(it)}" for it in own]
    return [*lines[1:], ""]


def private(known):
    """The private definitions: a row for each crate and file."""
    rows = ["| crate | file | its private definitions |", "|---|---|---|"]
    for crate, files in by_file(known, known.definitions.keys() - known.public()):
        for file, own in files:
            rows.append(f"| {crate} | [{own[0].module}](../{file.relative_to(TOP)}) | {', '.join(f'`{it.name}`' for it in own)} |")
    return rows


def makers(known):
    return {
        "index": lambda _: index(known),
        "private": lambda _: private(known),
        "crates": crate_rows,
        "limits": lambda _: limit_rows(known),
    }


def page(name, known):
    """A page with its parts anew, as it is and as it should be."""
    own = {kind: maker for kind, maker in makers(known).items() if kind in PAGES[name]}
    text = (TOP / "docs" / name).read_text(encoding="utf-8")
    return text, generated.filled(text, own)


def parts(known):
    """Each page has the parts that the sources make, and each group of crates has its table."""
    for name in PAGES:
        old, new = page(name, known)
        judge(old == new, "it is not what tools/docs definitions --write makes of it", f"docs/{name}")
        for kind in PAGES[name]:
            judge(f"<!-- {kind}" in old, f"no part has the mark {kind}", f"docs/{name}")
    text = (TOP / "docs" / "ARCHITECTURE.md").read_text(encoding="utf-8")
    for group, rows in crates():
        judge(f"<!-- crates: {group} -->" in text, f"the crates of {group} have no table", "docs/ARCHITECTURE.md")
        for crate, what in rows:
            judge(what, f"it does not say what {crate} is for", "crates.txt")


def own_names(known):
    """No two definitions have one name, but for `holds` (docs/DECISIONS.md)."""
    names = [key[2] for key in known.definitions]
    twice = sorted(name for name in set(names) - {"holds"} if names.count(name) > 1)
    judge(twice == [], f"several definitions are called {', '.join(twice)}", "crates/*/specs")


def sentences(known):
    """Each public definition has a sentence of its own."""
    for key in sorted(known.public()):
        it = known.definitions[key]
        judge(it.comment, f"{it.name} has no sentence above it", it.place())


def clauses():
    """Each clause, function and type that a table of docs/PROMISES.md names of a crate is there. The head of the
    column names the crate or the function, as `answer`."""
    text = (TOP / "docs" / "PROMISES.md").read_text(encoding="utf-8")
    code = "\n".join(file.read_text(encoding="utf-8") for file in sorted(TOP.glob("crates/sg_*/src/**/*.rt")))
    known = set(re.findall(r"(?:ensures|fn|struct|enum|trait|type) (\w+)", code))
    for table in re.findall(r"^\| promise \| clause.*\n(?:\|.*\n)*", text, re.M):
        for row in table.splitlines()[2:]:
            for word in WORDS.findall(row.split(" | ")[1]):
                judge(word in known, f"there is no clause or function {word}", "docs/PROMISES.md")


def main(words):
    known = specs.Specs()
    if words == ["--write"]:
        for name in PAGES:
            (TOP / "docs" / name).write_text(page(name, known)[1], encoding="utf-8")
        return 0
    parts(known)
    own_names(known)
    sentences(known)
    clauses()
    print(f"{passed} passed, {failed} failed")
    return 1 if failed else 0


if __name__ == "__main__":
    sys.exit(main(sys.argv[1:]))
