"""The guides as they are packed: without what is in the repository alone. A link to a page or a file that is
not packed becomes its text, the script is called as it is installed, and a sentence or a row that names a
tool, a folder or a crate of the repository is left out."""
import os
import re

from parts import TOP, VERSION, example_files

# The pages for users, in the order in which to read them, with what each is for.
GUIDES = {
    "FORMATS.md": "inputs, answers, refusals, verdicts and exit statuses",
    "ENCODING.md": "your problem as an instance",
    "STUDIES.md": "studies by scripts, over many samples",
    "ALGORITHM.md": "the algorithm and its papers",
    "TOUR.md": "a tour with pictures",
    "GLOSSARY.md": "the terms of these pages",
}
LINK = re.compile(r"(!?)\[([^\]]*)\]\(([^)\s]+)\)")
SENTENCE = re.compile(r"(?<=[.:])\s(?=[A-Z`(])")
# The pages that are not packed.
OTHERS = sorted({page.stem for page in [TOP / "CONTRIBUTING.md", *TOP.glob("docs/*.md")] if page.name not in GUIDES})
# What a page of the repository may name that is not packed.
FOREIGN = re.compile(
    r"\b(?:tools|bindings|crates|built|docs)/|\./gate\b|\bsg_\w+|\bsources have changed|\brt \w+`|"
    rf"\b(?:{'|'.join(OTHERS)})\b"
)
# What has another name where it is installed: in prose, and in code.
NAMES = (
    ("the [README](../README.md#the-commands)", "`ising2d(1)`"),
    ("tools/explain", "ising2d --explain"),
    ("`built/ising2d`", "`lib/ising2d/ising2d`"),
    ("built/ising2d ", "ising2d "),
    ("./ising2d", "ising2d"),
    ("docs/FORMATS.md)", "FORMATS.md)"),
)
CODE_NAMES = (("built/ising2d", "ising2d"), ("./ising2d", "ising2d"))
# A reference to a page in brackets, which is left out with them where the page is not packed.
REFERENCE = re.compile(r' \(\[[^\]]*\]\(([^)\s]+)\)(?:, "[^"]*")?\)')


def named(text, names):
    for old, new in names:
        text = text.replace(old, new)
    return text


def place_of(page, target):
    """The file that a link of a page leads to, by its place in the repository; none where it leads elsewhere."""
    name = target.partition("#")[0]
    return None if "://" in name or not name else os.path.normpath(os.path.join(os.path.dirname(page), name))


def linked(page, packed, text):
    """The text with links to what is packed, and with the text of other links."""

    def made(match):
        picture, shown, target = match.groups()
        place, mark = place_of(page, target), target.partition("#")[2]
        if place is None:
            return match[0]
        if place not in packed:
            return shown
        return f"{picture}[{shown}]({os.path.relpath(packed[place], os.path.dirname(packed[page]))}{'#' * bool(mark)}{mark})"

    def kept(match):
        place = place_of(page, match[1])
        return match[0] if place is None or place in packed else ""

    return LINK.sub(made, REFERENCE.sub(kept, text))


def without_foreign(line):
    """A line of prose without the sentences that name what is not packed, and none where nothing is left. A row
    of a table is left out as a whole."""
    if line.startswith("|"):
        return None if FOREIGN.search(line) else line
    kept = [it for it in SENTENCE.split(line) if not FOREIGN.search(it)]
    return " ".join(kept) if kept else None


def blocks(text):
    """The blocks of a page, in their order: lines of code that stand together, and each other line by itself."""
    code = []
    for line in text.splitlines():
        if line.startswith("    "):
            code.append(line)
            continue
        if code:
            yield code
        code = []
        yield [line]
    if code:
        yield code


def packed_page(page, packed):
    """A page of the repository as it is packed. `packed` has the new place of each file by its old one. A block
    of code that names what is not packed is left out, with the sentence that leads to it."""
    lines = []
    for block in blocks((TOP / page).read_text(encoding="utf-8")):
        if not block[0].startswith("    "):
            made = None if block[0].startswith("<!--") else without_foreign(linked(page, packed, named(block[0], NAMES)))
            lines += [] if made is None else [made]
            continue
        code = [named(line, CODE_NAMES) for line in block]
        if not any(FOREIGN.search(line) for line in code):
            lines += code
            continue
        while lines and not lines[-1]:
            lines.pop()
        if lines and lines[-1].endswith(":"):
            lines[-1] = lines[-1].rpartition(". ")[0] + "." * (". " in lines[-1])
    return re.sub(r"\n{3,}", "\n\n", "\n".join(lines)).strip() + "\n"


def pages():
    """The packed pages and pictures: the new place of each by its old one."""
    found = {f"docs/{name}": name for name in GUIDES if (TOP / "docs" / name).exists()}
    found["CHANGELOG.md"] = "CHANGELOG.md"
    for folder in ("tour", "pictures"):
        for file in sorted((TOP / "docs" / folder).glob("*.svg")):
            found[str(file.relative_to(TOP))] = f"{folder}/{file.name}"
    for file in example_files():
        found[str(file.relative_to(TOP))] = str(file.relative_to(TOP))
    return found


def front_page(glibc, wheel):
    """The page that stands at the front of what is installed."""
    rows = ["| page | on |", "|---|---|"]
    rows += [f"| [{name}]({name}) | {what} |" for name, what in GUIDES.items() if (TOP / "docs" / name).exists()]
    rows.append("| [examples](examples/README.md) | inputs with their answers |")
    text = (TOP / "packaging" / "README.md").read_text(encoding="utf-8")
    python = f"| `wheel` | the Python package: `pip install wheel/{wheel.name}` |\n" if wheel else ""
    text = text.replace("@WHEEL@\n", python)
    return text.replace("@VERSION@", VERSION).replace("@GLIBC@", glibc).replace("@PAGES@", "\n".join(rows))
