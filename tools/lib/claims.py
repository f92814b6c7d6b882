#!/usr/bin/env python3
"""Prints the definitions that a claim rests on, each behind those that it cites, with its file: what a referee has to
read to know what the contract of a function says.

  tools/docs claims [FUNCTION | CRATE::FUNCTION | CRATE::TYPE::FUNCTION | CRATE::DEFINITION ..]
  tools/docs claims --test     the part of the gate: that the generated parts of docs/REFEREE.md and the numbers of
                          README.md are up to date
  tools/docs claims --write    writes these parts and numbers

Without names these are the claims of the README: a ground state, a yes of the checker, the reply to words and an
input, the same with the four laws, and a run over devices. A definition counts if a clause of the function cites it,
or a definition that counts does. Those of libraries are counted apart: the ones that are cited, and, if the toolchain
with the logic of the page is on this machine, those behind them.

A test prints a line for each fault, and last `N passed, M failed`; its exit status is 0 if none failed.
"""
import pathlib
import re
import shutil
import subprocess
import sys
import textwrap

sys.dont_write_bytecode = True
import generated
import specs

CLAIMS = {
    "sg_ground::solve": "a ground state with its proof",
    "sg_check::Checker::check": "a yes of the checker",
    "sg_cli::answer": "the reply to words and an input",
    "sg_cli::answer_with_all_laws": "the same with the four laws",
    "sg_cli::run_with_all_laws": "a run over devices",
}
REFEREE = specs.TOP / "docs" / "REFEREE.md"
README = specs.TOP / "README.md"
# The paragraph of the README whose numbers are those of the claims, in their order; the last two are what the laws
# and a run over devices add.
PROVED = re.compile(r"^- \*\*Proved\*\*.*$", re.M)
NUMBER = re.compile(r"(?<![\w#.])\d+(?![\w.]*\w)")


def keys_of(claim, known):
    """What a claim cites: the clauses of a function, or a definition alone."""
    crate, name = claim.split("::")[0], claim.split("::")[-1]
    own = [key for key in known.definitions if key[0] == crate and key[2] == name]
    return own[:1] or known.contract(claim)


def lines_of(found):
    return sum(it.lines() for it in found)


def print_claim(claim, known):
    found = known.behind(keys_of(claim, known))
    files = len({it.file for it in found})
    print(f"{claim} rests on {len(found)} of {len(known.definitions)} definitions, {lines_of(found)} lines in {files} files:")
    for it in found:
        print(f"  {it.name}  {it.place()}")
    for library, names in libraries(found, known).items():
        print(f"  of {library}: {', '.join(names)}")
    print()


def libraries(found, known):
    """What the definitions cite of the toolchain's libraries, by library."""
    cited = {}
    for it in found:
        for library, name in known.foreign(it):
            cited.setdefault(library, {})[name] = True
    return {library: sorted(cited[library]) for library in sorted(cited)}


class Page:
    """The generated parts of docs/REFEREE.md, made one behind another: each has the definitions that no part before
    it has."""

    def __init__(self, known):
        self.known, self.shown, self.anchors = known, set(), {}

    def makers(self):
        own = {kind: lambda named, kind=kind: self.part(kind, named.split()) for kind in ("tables", "files", "code")}
        known = self.known
        return {
            **own,
            "only": self.only,
            "contract": lambda named: contracts(named.split(), known),
            "libraries": lambda named: library_rows(libraries(known.behind(keys_of(named, known)), known)),
            "counts": lambda _: count_rows(known),
        }

    def part(self, kind, claims):
        """The lines of a part with definitions."""
        keys = [key for claim in claims for key in keys_of(claim, self.known)]
        fresh = [it for it in self.known.behind(keys) if it.key() not in self.shown]
        self.shown |= {it.key() for it in fresh}
        return {"tables": self.rows, "files": self.files, "code": self.code}[kind](fresh)

    def only(self, named):
        """Definitions as code, and none behind them."""
        found = [self.known.definitions[keys_of(name, self.known)[0]] for name in named.split()]
        self.shown |= {it.key() for it in found}
        return self.code(found)

    def anchor(self, it):
        """The mark of a definition on the page: its name, with its crate if another one has the name."""
        taken = self.anchors.setdefault(it.name, it.key()) != it.key()
        return f'<a id="{it.crate}-{it.name}"></a>' if taken else f'<a id="{it.name}"></a>'

    def rows(self, fresh):
        yield "| definition | meaning | file |"
        yield "|---|---|---|"
        for it in fresh:
            yield f"| {self.anchor(it)}`{it.name}` | {it.comment} | {file_link(it)} |"

    def code(self, fresh):
        """The definitions as they stand in their files, with the comments above them: files and definitions in an
        order in which none is used before it is defined."""
        for file in file_order(fresh, self.known):
            own = sorted((it for it in fresh if it.file == file), key=lambda it: it.line)
            yield f"{''.join(self.anchor(it) for it in own)}{own[0].crate}, {file_link(own[0])}:\n"
            yield "```"
            for place, it in enumerate(own):
                comment = textwrap.fill(it.comment, 108, initial_indent="-- ", subsequent_indent="-- ")
                yield f"{'' if place == 0 else chr(10)}{comment}\n{it.text.strip()}"
            yield "```\n"

    def files(self, fresh):
        yield "| file | its definitions |"
        yield "|---|---|"
        last = {it.file: place for place, it in enumerate(fresh)}
        for file in sorted(last, key=last.get):
            own = [it for it in fresh if it.file == file]
            names = ", ".join(f"`{it.name}`" for it in own)
            yield f"| {own[0].crate} {file_link(own[0])} | {names} |"


def file_order(found, known):
    """The files of definitions, each behind those that its definitions cite."""
    order, files = [], dict.fromkeys(it.file for it in found)

    def visit(file):
        for it in found:
            if it.file == file:
                for cited in known.cited(it):
                    if cited.file != file and cited.file in files and cited.file not in order:
                        visit(cited.file)
        if file not in order:
            order.append(file)

    for file in files:
        visit(file)
    return order


def contracts(claims, known):
    """Functions as they stand in their files, up to their bodies."""
    for claim in claims:
        yield f"```rust\n{textwrap.dedent(known.function(claim).head).strip()}\n```"


def count_rows(known):
    """How many definitions each claim rests on, of how many lines, and what it adds to the claims above it."""
    yield "| claim | definitions | lines | not in a row above |"
    yield "|---|---|---|---|"
    seen = set()
    for claim, what in CLAIMS.items():
        found = known.behind(known.contract(claim))
        fresh = {it.key() for it in found} - seen
        seen |= fresh
        yield f"| {what}: `{claim}` | {len(found)} | {lines_of(found)} | {len(fresh)} |"


def library_rows(cited):
    """A table of what is cited of libraries, with the number of definitions and lines behind that, as far as the
    toolchain of the page is on this machine; else these numbers are those of the page."""
    rows = re.findall(r"^\| `(\w+)` \| \d+ \| (\d+|) \| (\d+|) \|", REFEREE.read_text(encoding="utf-8"), re.M)
    old, kit = {name: (count, lines) for name, count, lines in rows}, toolchain()
    behind = library_definitions(kit, cited) if kit else {}
    yield "| library | cited | with those behind them | lines | the cited ones |"
    yield "|---|---|---|---|---|"
    for library, names in cited.items():
        count, lines = behind.get(library) or old.get(library, ("", ""))
        yield f"| `{library}` | {len(names)} | {count} | {lines} | {', '.join(f'`{name}`' for name in names)} |"


def toolchain():
    """The folder of the toolchain's libraries, if it has the logic that the page names."""
    rt = shutil.which("rt")
    if not rt:
        return None
    say = lambda word: subprocess.run([rt, word], stdout=subprocess.PIPE, stderr=subprocess.DEVNULL, text=True).stdout
    logic = re.search(r"logic (\w+)", say("version"))
    same = logic and f"`{logic[1]}`" in REFEREE.read_text(encoding="utf-8")
    folder = pathlib.Path(say("doc").strip()).parent / "rattle"
    return folder if same and folder.is_dir() else None


def library_definitions(kit, cited):
    """For each library how many of its own definitions are behind those that are cited, and their lines. Cases of a
    type are no definitions."""
    found = {}
    for library, names in cited.items():
        own, uses = {}, {}
        for file in sorted((kit / library).glob("specs/**/*.antt")):
            text = file.read_text(encoding="utf-8")
            for _, name, block, _ in specs.blocks([line.removeprefix("  ") for line in text.splitlines()]):
                own.setdefault(name, block)
        reached, left = {}, [name for name in names if name in own]
        while left:
            name = left.pop()
            if name not in reached:
                reached[name] = own[name]
                left += [word for word in specs.words(own[name]) if word in own]
        lines = sum(len([line for line in block.splitlines() if line.strip()]) for block in reached.values())
        if reached:
            found[library] = (len(reached), lines)
    return found


def file_link(it):
    return f"[{it.module}](../{it.file.relative_to(specs.TOP)})"


def page(known):
    return generated.filled(REFEREE.read_text(encoding="utf-8"), Page(known).makers())


def counts(known):
    """The numbers of the README."""
    behind = [{it.key() for it in known.behind(known.contract(claim))} for claim in CLAIMS]
    own = [len(keys) for keys in behind]
    return [*own[:3], len(behind[3] - behind[2]), len(behind[4] - behind[3])]


def readme(known):
    """The README with the right numbers in its paragraph on what is proved."""
    text = README.read_text(encoding="utf-8")
    match = PROVED.search(text)
    if not match or not NUMBER.search(match[0]):
        return None
    numbers = iter(counts(known))
    return text.replace(match[0], NUMBER.sub(lambda found: str(next(numbers, found[0])), match[0]))


def reaches(known, key):
    """Which public functions reach a definition through clauses."""
    for it in known.functions:
        if it.is_public and any(found.key() == key for found in known.behind(it.clauses)):
            yield f"{it.crate}::{it.name}"


def test(known):
    faults = []
    if page(known) != REFEREE.read_text(encoding="utf-8"):
        faults.append("docs/REFEREE.md is not what tools/docs claims --write makes of it")
    if readme(known) != README.read_text(encoding="utf-8"):
        faults.append(f"README.md: the paragraph on what is proved has not the numbers {counts(known)}")
    for fault in faults:
        print(fault)
    print(f"{2 - len(faults)} passed, {len(faults)} failed")
    return 1 if faults else 0


def write(known):
    REFEREE.write_text(page(known), encoding="utf-8")
    text = readme(known)
    if text:
        README.write_text(text, encoding="utf-8")
    return 0


def main(names):
    known = specs.Specs()
    if names in (["--test"], ["--write"]):
        return (test if names == ["--test"] else write)(known)
    for claim in names or CLAIMS:
        print_claim(claim if "::" in claim else known.full_name(claim), known)
    return 0


if __name__ == "__main__":
    sys.exit(main(sys.argv[1:]))
