#!/usr/bin/env python3
"""Tests the sentences of refusals and verdicts, which stand once, in bindings/python/ising2d/texts.csv: that
the tables of docs/FORMATS.md have each word for word; that the definitions, the code, the header of the
library and the judge of joins have the same numbers and names, and keep as many numbers; that what is
allowed has the limits of the definitions; that tools/explain says each; and that the script ising2d, about a
run that ends badly, leads to what is there. Part of the gate; it needs bash and Python.

  tools/docs texts
  tools/docs texts --write     writes the first columns of the tables of docs/FORMATS.md

In front of a table stands the mark `texts: OF ..`, with what its rows are of, as in the data. The columns in
front come from the data, and the further ones are the page's own.

A line for each fault, and last `N passed, M failed`; the exit status is 0 if none failed.
"""
import ast
import csv
import pathlib
import re
import shutil
import subprocess
import sys
import tempfile
from typing import NamedTuple

sys.dont_write_bytecode = True
import specs

top = specs.TOP
PAGE = top / "docs" / "FORMATS.md"
PACKAGE = top / "bindings" / "python" / "ising2d"
HEADER = top / "bindings" / "c" / "ising2d.h"
BLOCK = re.compile(r"^<!-- texts: (.*) -->\n((?:\|.*\n)*)", re.M)
# A case of a definition, by a name with the numbers that it keeps: a list that begins with its number.
CASE = r"^NAME \(?(\w+)((?: \w+)*)\)? = (?:pos (\d+) ∷ )?(.*)\[\]$"
# A refusal of the code: its number and its two names, the text's and its own, with its fields.
CODED = re.compile(
    r'Number (\d+): (?:.*\n *///)*.*\n *#\[error\("(\w+)"\)\]\n *(\w+)(?: \{ ([^}]*) \})?,$', re.M
)
# The names of the code, where they are not those that users have.
MEMBERS = {"SpinCount": "n", "Names": "", "Loops": "starts", "FaceRadii": "at_radii"}
# What a table calls the rows of a kind.
TITLES = {
    "graph": "a weighted graph",
    "large": "a call that takes large instances",
    "line": "a text whose line is known",
    "cuts": "join, walk",
}
# What has the refusal's own words for a part of the inputs.
PARTS = ("member", "graph", "large", "line")
# Where the limits stand in what is allowed, and in which rows of refusals on the page.
LIMITS = {
    "spin_limit": (("refusal", 7), ("graph", 7)),
    "bond_limit": (("refusal", 8), ("graph", 8)),
    "sum_limit": (("refusal", 13), ("graph", 13)),
    "large_spin_limit": (("large", 7),),
    "large_bond_limit": (("large", 8),),
}
ON_THE_PAGE = {"input_limit": 1, "spin_limit": 7, "bond_limit": 8, "sum_limit": 13, "json_limit": 20}

passed = failed = 0


def judge(good, what, page="bindings/python/ising2d/texts.csv"):
    global passed, failed
    passed += bool(good)
    failed += not good
    if not good:
        print(f"{page}: {what}", flush=True)


class Text(NamedTuple):
    """A row of the data, with what it has from the refusal."""

    name: str
    kept: list
    sentence: str
    allowed: str

    def words(self, shown):
        """The whole sentence, with what is allowed, over the kept numbers as they are shown."""
        text = self.sentence + (f" (allowed: {self.allowed})" if self.allowed else "")
        return text.format(**{name: shown(name) for name in self.kept})


def data():
    """The rows, by what they are of and by number. Where a row of a refusal's part leaves a field empty, it is
    that of the refusal."""
    found = {}
    with open(PACKAGE / "texts.csv", encoding="utf-8", newline="") as file:
        for row in csv.DictReader(file):
            of, number = row["of"], int(row["number"])
            own, nothing = found.setdefault(of, {}), Text("", [], "", "")
            judge(number not in own, f"{of} {number} stands there twice")
            whole = found["refusal"][19 if of == "member" else number] if of in PARTS else nothing
            kept, sentence = row["kept"].split() or whole.kept, row["sentence"] or whole.sentence
            own[number] = Text(row["name"], kept, sentence, row["allowed"] or whole.allowed)
    return found


def numbers(known, of):
    """What is of this, as a table that tests compare: the name and how many numbers are kept, by number."""
    return {number: (text.name, len(text.kept)) for number, text in known[of].items()}


# The tables of docs/FORMATS.md.


def first_columns(known, of, number):
    """The columns of a row that come from the data."""
    text = known[of][number]
    words = text.words(lambda name: f"`{name}`").replace("**", r"\*\*")
    if of == "refusal":
        return [str(number), ", ".join([text.name, *text.kept]), words]
    if of == "member":
        return [str(number), f"`{text.name}`" if text.name else "any other name", words]
    if of == "loops":
        return ["`yes`" if number == 0 else f"`{','.join(['no', str(number), *text.kept])}`", words]
    return [TITLES.get(of, of), str(number), words.partition(" (allowed")[0] if of == "line" else words]


def cells(line):
    return [cell.strip() for cell in line.strip("| ").split(" | ")]


def table(known, mark, old):
    """A table with its first columns anew, and the further ones as they are; those of a new row are empty."""
    rows = [first_columns(known, of, number) for of in mark.split() for number in known[of]]
    if mark == "loops":
        rows = rows[1:] + rows[:1]
    count = len(rows[0])
    keys = 2 if len(mark.split()) > 1 else 1
    own = {tuple(cells(line)[:keys]): cells(line)[count:] for line in old.splitlines()[2:]}
    head = cells(old.splitlines()[0])
    made = [head, ["---"] * len(head)]
    made += [row + own.get(tuple(row[:keys]), [""] * (len(head) - count)) for row in rows]
    return "".join(f"|{'|'.join(row)}|\n" if row[0] == "---" else f"| {' | '.join(row)} |\n" for row in made)


def page(known):
    """docs/FORMATS.md with its tables anew."""
    made = lambda match: f"<!-- texts: {match[1]} -->\n{table(known, match[1], match[2])}"
    return BLOCK.sub(made, PAGE.read_text(encoding="utf-8"))


def on_the_page(known):
    text = PAGE.read_text(encoding="utf-8")
    judge(text == page(known), "it is not what tools/docs texts --write makes of it", "docs/FORMATS.md")
    marks = [of for match in BLOCK.finditer(text) for of in match[1].split()]
    judge(sorted(marks) == sorted(known), "not each kind of row stands in one table", "docs/FORMATS.md")
    for match in BLOCK.finditer(text):
        for line in match[2].splitlines():
            judge(all(cells(line)), f"a column is empty: {line}", "docs/FORMATS.md")
    names = {own.name for own in known["refusal"].values()}
    for word in sorted(set(re.findall(r"\b[A-Z][a-z]+[A-Z][a-z]\w*", text))):
        judge(word in names, f"there is no refusal {word}", "docs/FORMATS.md")


# The definitions, the code, and the judge of joins.


class Definitions:
    """The definitions by their names, each as its text. One that is not there has no text."""

    def __init__(self):
        self.texts = {it.name: it.text for it in specs.Specs().definitions.values()}

    def find(self, pattern, name):
        return re.findall(pattern.replace("NAME", name), self.texts.get(name, ""), re.M)

    def cases(self, name):
        """The cases of one that gives lists of numbers, as `numbers` has them."""
        found = {}
        for word, fields, number, rest in self.find(CASE, name):
            count = rest.count("∷")
            judge(count == len(fields.split()), f"{word} does not keep what it has", name)
            found[int(number or 0)] = word, count
        return found

    def places(self):
        """The arguments of the library, each with its place."""
        texts = self.texts.items()
        return [found[0] for name, text in texts if (found := re.findall(r"^(\w+)_place = (\d+)$", text, re.M))]

    def number(self, name):
        """The value of a numeral."""
        found = self.find(r"^NAME = ([\d ^*+]+)$", name)
        return eval(found[0].replace("^", "**")) if found else None


def by_the_definitions(known, defined):
    refusals = defined.cases("refusal_numbers")
    judge(numbers(known, "refusal") == refusals, "the refusals are not those of refusal_numbers")
    judge(14 not in refusals, "number 14 is in use", "refusal_numbers")
    judge(numbers(known, "loops") == defined.cases("verdict_numbers"), "the verdicts are not those of verdict_numbers")
    members = {int(place): name for name, place in defined.find(r"^NAME (?:\w+\.)?(\w+) = (\d+)$", "place_of")}
    named = {place: MEMBERS.get(name, name.lower()) for place, name in members.items()}
    # Arguments that the library alone has: each place is a definition of its own.
    named |= {int(place): name for name, place in defined.places()}
    judge({place: own.name for place, own in known["member"].items()} == named, "the members are not those of place_of and of NAME_place")


def by_the_limits(known, defined):
    for name, rows in LIMITS.items():
        for of, number in rows:
            found = re.search(r"\d+$", known[of][number].allowed)
            judge(found and int(found[0]) == defined.number(name), f"{of} {number} has not the limit {name}")
    text = PAGE.read_text(encoding="utf-8").partition("<!-- texts: refusal -->")[2]
    for name, number in ON_THE_PAGE.items():
        exact = re.search(rf"^\| {number} \|.*\|([^|]*)\|$", text, re.M)[1]
        judge(str(defined.number(name)) in re.findall(r"\d+", exact), f"refusal {number} has not the limit {name}", "docs/FORMATS.md")


def by_the_code(known):
    """The comments of the type of refusals say their numbers."""
    text = "".join(file.read_text(encoding="utf-8") for file in top.glob("crates/*/src/refusal.rt"))
    found = {int(number): (name, fields.count(":")) for number, name, word, fields in CODED.findall(text) if name == word}
    judge(numbers(known, "refusal") == found, "the refusals are not those of refusal.rt")


def by_the_header(known):
    """Each refusal that the header of the library lists has its number, and keeps as many numbers."""
    for line in re.findall(r"^ \*   (\d+(?:,\w+)*) ", HEADER.read_text(encoding="utf-8"), re.M):
        number, *kept = line.split(",")
        text = known["refusal"].get(int(number))
        good = text and len(kept) == len(text.kept) and (text.name != "BadMember" or int(kept[0]) in known["member"])
        judge(good, f"there is no refusal {line}", "bindings/c/ising2d.h")


def judged(name):
    """The verdicts that a call of the judge of joins gives: how many numbers each keeps."""
    tree = ast.parse((PACKAGE / "_judging.py").read_text(encoding="utf-8"))
    call = next(it for it in ast.walk(tree) if isinstance(it, ast.FunctionDef) and it.name == name)
    pairs = [it.elts for it in ast.walk(call) if isinstance(it, ast.Tuple) and len(it.elts) == 2]
    return {one.value: ("", len(kept.elts)) for one, kept in pairs if isinstance(one, ast.Constant) and isinstance(kept, ast.Tuple)}


def by_the_judge(known):
    """Every verdict on a join and on a walk is one that the judge gives."""
    for of, name in (("join", "on_edges"), ("walk", "on_walk"), ("cuts", "_on_cuts")):
        wanted = {number: own for number, own in numbers(known, of).items() if number or of == "cuts"}
        found = {number: own for number, own in judged(name).items() if number}
        judge(wanted == found, f"the verdicts of {of} are not those of {name}", "bindings/python/ising2d/_judging.py")


# The command line.


def explained(*lines):
    """What tools/explain says of lines, and its exit status."""
    ran = subprocess.run([sys.executable, top / "tools" / "explain", *lines], capture_output=True, text=True)
    return ran.stdout.splitlines(), ran.returncode


def by_tools_explain(known):
    sample = lambda kept: {name: str(101 + place) for place, name in enumerate(kept)}
    rows = [("refused", "refusal", number) for number in known["refusal"] if number != 19]
    for word, of, number in rows + [("no", "loops", number) for number in known["loops"] if number]:
        text, shown = known[of][number], sample(known[of][number].kept)
        line = ",".join([word, str(number), *shown.values()])
        begin = f"{text.name} ({number})" if word == "refused" else word
        others = [known[it][number] for it in ("graph", "large") if word == "refused" and number in known[it]]
        told, status = explained(line)
        good = told[:1] == [f"{begin}: {text.words(shown.get)}"] and status == 0 and len(told) == 1 + len(others)
        good = good and all(own.words(shown.get) in it for own, it in zip(others, told[1:]))
        judge(good, f"it says of {line}: {told}", "tools/explain")
    for place, text in known["member"].items():
        told = explained(f"refused,19,{place},7")
        shown = {"place": str(place), "entry": "7"}
        judge(told == ([f"BadMember (19): {text.words(shown.get)}"], 0), f"it says of member {place}: {told}", "tools/explain")
    told = explained("energy,-3", "yes", "end")
    judge(told == ([f"yes: {known['loops'][0].sentence}"], 0), f"it says of an answer: {told}", "tools/explain")
    judge(explained("energy,-3", "refused", "no,x") == ([], 2), "it takes what is no line", "tools/explain")


def endings():
    """What the script ising2d says when a program in its hands ends with a status, which writes just its line."""
    with tempfile.TemporaryDirectory() as room:
        room = pathlib.Path(room)
        made = room / "crates" / "ising2d" / "out" / "ising2d"
        for folder in (made.parent, room / "tools"):
            folder.mkdir(parents=True)
        for file, text in ((made, 'echo "status,$1"\nexit "$1"\n'), (room / "tools" / "build", "exit 0\n")):
            file.write_text("#!/bin/sh\n" + text)
            file.chmod(0o755)
        for name in ("crates.txt", "HANDLES"):
            (room / name).write_text("")
        shutil.copy(top / "ising2d", room / "ising2d")
        for status in range(8):
            ran = subprocess.run([room / "ising2d", str(status)], stdin=subprocess.DEVNULL, capture_output=True, text=True)
            judge((ran.returncode, ran.stdout) == (status, f"status,{status}\n"), f"it changes a run: {ran}", "ising2d")
            yield status, ran.stderr


def leads(told):
    """The faults of a line that says where to look: a page, a heading of it, or a tool that is not there."""
    for file in re.findall(r"[\w./]+/[\w.]+|README\.md", told):
        if not (top / file).exists():
            yield f"there is no {file}"
    for file, head in re.findall(r'([\w./]+\.md), "([^"]+)"', told):
        if not re.search(rf"^## {re.escape(head)}$", (top / file).read_text(encoding="utf-8"), re.M):
            yield f"{file} has no heading {head}"


def by_the_script():
    for status, told in endings():
        good = not told if status == 0 or not shutil.which("setpriv") else bool(re.fullmatch(r"ising2d: .*\n", told))
        good = good and ("ising2d --explain" in told) == bool(told and status in (1, 3))
        judge(good, f"of status {status} it says {told!r}", "ising2d")
        faults = list(leads(told))
        judge(not faults, f"of status {status}: {faults}", "ising2d")


known = data()
if sys.argv[1:] == ["--write"]:
    PAGE.write_text(page(known), encoding="utf-8")
    sys.exit(0)
on_the_page(known)
defined = Definitions()
by_the_definitions(known, defined)
by_the_limits(known, defined)
by_the_code(known)
by_the_header(known)
by_the_judge(known)
by_tools_explain(known)
by_the_script()
print(f"{passed} passed, {failed} failed")
sys.exit(0 if failed == 0 else 1)
