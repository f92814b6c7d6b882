"""Reads the definitions of all crates, and which of them clauses cite: for tools/docs claims, tools/docs definitions and tools/docs texts.

A definition is public where a clause of a public function cites it, or a definition that is public does;
the others are private: only private contracts cite them. A public function is one that a crate exports: by
its lib.rt, as a method of a type or a trait that this exports, or to C. What a value of an exported type is
for clauses (`ghost Value`) counts as a clause. The definitions of the toolchain's libraries are not followed;
which of them a definition cites `Specs.foreign` says.
"""
import pathlib
import re

TOP = pathlib.Path(__file__).resolve().parents[2]
STARTS = re.compile(r"^(?:pub )?(?:abbrev|unfoldable|record|data)\b(?: pub)? *([^\s:(]+)")
WORD = re.compile(r"[^\s(){}\[\],;.·→×∷≡↔]+")
IMPORT = re.compile(r"^ *(?:ghost )?use Rattle\.(\w+)\.specs\.([\w.]+)\.\{([^}]*)\};?$", re.M)
# The library that every definition may cite.
COMMON = "std"
CLAUSE = re.compile(r"^ *(?:requires|ensures)\b.*(?:\n(?! *(?:requires|ensures|\{)).*)*", re.M)
FUNCTION = re.compile(r'^( *)(pub )?(extern "C" )?fn (\w+)', re.M)
VALUE = re.compile(r"^ *ghost Value = .*$", re.M)
OWNER = re.compile(r"^(?:pub )?(impl|trait)\b(.*)$", re.M)


class Definition:
    """A definition of specs/: its place, its text without comments, and the comment in front of it."""

    def __init__(self, crate, module, name, place, text, comment):
        self.crate, self.module, self.name = crate, module, name
        self.file, self.line = place
        self.text, self.comment = text, comment

    def key(self):
        return self.crate, self.module, self.name

    def lines(self):
        return len([line for line in self.text.splitlines() if line.strip()])

    def place(self):
        return f"{self.file.relative_to(TOP)}:{self.line}"


class Function:
    """A function of src/: its crate, the line that owns it, its name, its text up to its body, what its clauses
    cite, and whether it is public."""

    def __init__(self, crate, owner, name, head, clauses, is_public):
        self.crate, self.owner, self.name, self.head = crate, owner, name, head
        self.clauses, self.is_public = clauses, is_public


def words(text):
    """The words of a text, each once, in their order."""
    return dict.fromkeys(WORD.findall(text))


def imported(text):
    """The names that a file imports from definitions of this repository, with their modules."""
    found = {}
    for crate, module, names in IMPORT.findall(text):
        for name in names.split(","):
            name, _, other = name.strip().partition(" as ")
            found[other.strip() or name] = (crate, module, name)
    return found


def comment_before(lines, start):
    """The comment that stands in front of a line, as one text."""
    end = start
    while start > 0 and lines[start - 1].startswith("--"):
        start -= 1
    return " ".join(line[2:].strip() for line in lines[start:end])


def blocks(lines):
    """The definitions of a file of specs/: the line of each, its name, its text, and its comment."""
    starts = [i for i, line in enumerate(lines) if STARTS.match(line)]
    for start, end in zip(starts, [*starts[1:], len(lines)]):
        text = [line for line in lines[start:end] if not line.startswith("--")]
        yield start + 1, STARTS.match(lines[start]).group(1), "\n".join(text), comment_before(lines, start)


class Specs:
    """All definitions, by crate, module and name; what each of their files imports; and all functions with
    what their files import."""

    def __init__(self):
        self.definitions, self.uses, self.functions = {}, {}, []
        for file in sorted(TOP.glob("crates/*/specs/**/*.antt")):
            self.read_definitions(file)
        for file in sorted(TOP.glob("crates/*/src/**/*.rt")):
            self.read_functions(file)

    def read_definitions(self, file):
        crate = file.relative_to(TOP / "crates").parts[0]
        module = ".".join(file.relative_to(TOP / "crates" / crate / "specs").with_suffix("").parts)
        text = file.read_text(encoding="utf-8")
        self.uses[crate, module] = imported(text)
        for line, name, block, comment in blocks(text.splitlines()):
            found = Definition(crate, module, name, (file, line), block, comment)
            self.definitions[found.key()] = found

    def read_functions(self, file):
        crate = file.relative_to(TOP / "crates").parts[0]
        text = file.read_text(encoding="utf-8")
        known, exported = imported(text), exports(crate)
        for owner, own in owned(text):
            shown = not owner or bool(exported & set(re.findall(r"\w+", owner)))
            for match in FUNCTION.finditer(own):
                head = header(own[match.start() :])
                clauses = known_words("\n".join(CLAUSE.findall(head)), known)
                is_shown = match[2] or "trait " in owner or " for " in owner
                is_public = bool(match[3]) or bool(is_shown and shown and (owner or match[4] in exported))
                self.functions.append(Function(crate, owner, match[4], head, clauses, is_public))
            values = known_words("\n".join(VALUE.findall(own)), known)
            self.functions.append(Function(crate, owner, "Value", "", values, bool(owner) and shown))

    def cited(self, definition):
        """The definitions that a definition cites, in the order of its text."""
        crate, module, name = definition.key()
        for word in words(definition.text):
            key = self.uses[crate, module].get(word, (crate, module, word))
            if word != name and key in self.definitions:
                yield self.definitions[key]

    def foreign(self, definition):
        """The definitions of libraries, but for `std`, that a definition cites: the library and the name of each."""
        crates = {key[0] for key in self.definitions}
        for word in words(definition.text):
            library, _, name = self.uses[definition.crate, definition.module].get(word, (COMMON, "", ""))
            if library != COMMON and library not in crates:
                yield library, name

    def behind(self, keys):
        """The definitions behind those named, and these, each behind those that it cites."""
        found, seen = [], set()

        def visit(definition):
            if definition.key() not in seen:
                seen.add(definition.key())
                for it in self.cited(definition):
                    visit(it)
                found.append(definition)

        for key in keys:
            if key in self.definitions:
                visit(self.definitions[key])
        return found

    def function(self, claim):
        """A public function with clauses: CRATE::FUNCTION or CRATE::TYPE::FUNCTION."""
        crate, *path = claim.split("::")
        for it in self.functions:
            is_owner = len(path) == 1 or re.search(rf"\b{path[0]}\b", it.owner)
            if it.crate == crate and it.name == path[-1] and it.is_public and is_owner and it.clauses:
                return it
        raise SystemExit(f"no public function {claim} has clauses")

    def full_name(self, name):
        """The public function of this name alone, with its crate, where one crate has it."""
        crates = dict.fromkeys(it.crate for it in self.functions if it.name == name and it.is_public and it.clauses)
        if len(crates) != 1:
            raise SystemExit(f"name the crate of {name}: {', '.join(crates) or 'no public function with clauses has this name'}")
        return f"{next(iter(crates))}::{name}"

    def contract(self, claim):
        """What the clauses of a public function cite."""
        return self.function(claim).clauses

    def public(self):
        """The keys of all public definitions."""
        cited = [key for it in self.functions if it.is_public for key in it.clauses]
        return {it.key() for it in self.behind(cited)}


def known_words(text, known):
    """The definitions that a text cites, by what its file imports."""
    return [known[word] for word in words(text) if word in known]


def exports(crate):
    """The names that a crate exports."""
    file = TOP / "crates" / crate / "src" / "lib.rt"
    text = file.read_text(encoding="utf-8") if file.exists() else ""
    names = set(re.findall(r"^pub (?:fn|struct|enum|trait|type) (\w+)", text, re.M))
    for one, many in re.findall(r"^pub use [\w:]+::(?:(\w+)|\{([^}]*)\});", text, re.M):
        names |= {one} | {name.strip() for name in many.split(",")}
    return names - {""}


def owned(text):
    """The parts of a file: each impl and trait with its first line, and all else without one."""
    last, rest = 0, []
    for match in OWNER.finditer(text):
        end = re.compile(r"^\}", re.M).search(text, match.end())
        stop = end.end() if end else len(text)
        rest.append(text[last : match.start()])
        yield match[0], text[match.start() : stop]
        last = stop
    yield "", "".join(rest) + text[last:]


def header(text):
    """A function up to its body."""
    end = re.search(r"^ *\{|;$|\{$|\{\}$", text, re.M)
    return text[: end.start()] if end else text
