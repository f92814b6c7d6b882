"""The man pages: packaging/*.in with the version, the date, and what stands elsewhere filled in."""
import csv
import re
import textwrap

from parts import TOP, VERSION

HEADER = TOP / "bindings" / "c" / "ising2d.h"
TEXTS = TOP / "bindings" / "python" / "ising2d" / "texts.csv"
# The most columns of a line of a source, as mandoc has it.
COLUMNS = 80
# What each status of the header means.
STATUSES = {
    "DONE": "Answered.",
    "REFUSED": "The numbers are refused; the line that says why is written (REFUSALS of ising2d(1)).",
    "USAGE": "From ising2d_c_run: the words name no command.",
    "NO": "The judged proof fails.",
    "NO_PROOF": "No proof was found within the allowed memory.",
    "NO_MEMORY": "Out of memory; no result is written.",
    "NO_WORDS": "From ising2d_c_run: the last word does not end with a byte 0.",
}
MARK = re.compile(r'^\.\\" (texts: \w+|members|functions|statuses|example)$', re.M)


def escaped(text):
    """A text as roff reads it: no backslash and no minus that it would change, and no request."""
    text = text.replace("\\", "\\e").replace("-", "\\-")
    return re.sub(r"^([.'])", r"\\&\1", text, flags=re.M)


def texts(of):
    with open(TEXTS, encoding="utf-8", newline="") as file:
        return [row for row in csv.DictReader(file) if row["of"] == of]


def sentence(row):
    """What a row says, with its kept numbers in capitals."""
    allowed = f" (allowed: {row['allowed']})" if row["allowed"] else ""
    text = re.sub(r"{(\w+)}", lambda match: match[1].upper(), row["sentence"] + allowed).replace("docs/", "")
    return f"{text[0].upper()}{text[1:]}."


def items(of):
    """An item for each refusal, or each verdict, with the line that says it."""
    for row in texts(of):
        head = "no" if of == "loops" else "refused"
        line = "yes" if of == "loops" and row["number"] == "0" else ",".join([head, row["number"], *row["kept"].upper().split()])
        yield f".It Li {line}"
        yield escaped(sentence(row))


def members():
    """The members that refusal 19 names, in one sentence."""
    rows = [f"{row['number']} {row['name'] or 'any other name'}" for row in texts("member") if int(row["number"]) < 10]
    yield escaped(", ".join(rows) + ".")


def functions():
    """An item for each function of the header, with the first sentence of the comment in front of it."""
    text = HEADER.read_text(encoding="utf-8")
    for comment, name in re.findall(r"/\*((?:(?!\*/).)*)\*/\n(?:(?!/\*).)*?^uint8_t (ising2d_c_\w+)\(", text, re.S | re.M):
        words = " ".join(re.sub(r"^ \*", "", comment, flags=re.M).split())
        yield f".It Fn {name}"
        yield escaped(re.match(r".*?[.:](?= |$)", words)[0].rstrip(":.") + ".")


def statuses():
    """An item for each status of the header."""
    block = re.search(r"/\* The status of a call.*?\n((?:#define [^\n]*\n)+)", HEADER.read_text(encoding="utf-8"), re.S)[1]
    for name, value in re.findall(r"^#define ISING2D_(\w+) (\d+)", block, re.M):
        yield f".It Dv ISING2D_{name} Pq {value}"
        yield escaped(STATUSES[name])


def example():
    text = (TOP / "examples" / "c" / "ground.c").read_text(encoding="utf-8")
    yield escaped(text.rstrip("\n"))


def filled(name):
    """A man page."""
    makers = {"members": members, "functions": functions, "statuses": statuses, "example": example}

    def made(match):
        word, _, of = match[1].partition(": ")
        return "\n".join(items(of) if of else makers[word]())

    date = re.search(r"^## \[[\d.]+\] - (\d+)-(\d+)-(\d+)$", (TOP / "CHANGELOG.md").read_text(encoding="utf-8"), re.M)
    months = "January February March April May June July August September October November December".split()
    page = (TOP / "packaging" / name).read_text(encoding="utf-8")
    page = page.replace("@DATE@", f"{months[int(date[2]) - 1]} {int(date[3])}, {date[1]}").replace("@VERSION@", VERSION)
    return wrapped(MARK.sub(made, page))


def wrapped(page):
    """A page whose lines are short, but for those that are shown as they are."""
    lines, is_literal = [], False
    for line in page.splitlines():
        is_literal = line.startswith(".Bd") or is_literal and not line.startswith(".Ed")
        if is_literal or line.startswith("."):
            lines.append(line)
        else:
            # A line that begins with a dot or a quote would be a request.
            lines += [re.sub(r"^([.'])", r"\\&\1", it) for it in textwrap.wrap(line, COLUMNS - 2, break_long_words=False, break_on_hyphens=False)]
    return "\n".join(lines) + "\n"


def ising2d():
    return filled("ising2d.1.in")


def libising2d():
    return filled("libising2d.3.in")
