"""The generated parts of the pages: where they stand, and a page without them.

A part begins with a mark, as `<!-- index: public -->`. Tables end at their last row, all other parts at a mark, as
`<!-- end of index -->`. Of a table of texts only the first columns are generated.
"""
import re

# Parts that are tables, and parts that end at a mark.
TABLES = ("tables", "files", "libraries", "counts", "crates", "limits")
LISTS = ("contract", "code", "only", "index", "private")
BLOCK = re.compile(
    rf"^<!-- ({'|'.join(TABLES)})(?:: (.*))? -->\n(?:\|.*\n)*|"
    rf"^<!-- ({'|'.join(LISTS)})(?:: (.*))? -->\n(?:.*\n)*?<!-- end of \3 -->\n",
    re.M,
)
TEXTS = re.compile(r"^<!-- texts: (.*) -->\n((?:\|.*\n)*)", re.M)
# How many columns of a table of texts come from the data.
COLUMNS = {"loops": 1}


def filled(text, makers):
    """A page with its generated parts made anew: each by the maker of its kind, from the words of its mark. Parts of
    other kinds stay as they are."""

    def made(match):
        kind, named = match[1] or match[3], match[2] or match[4]
        if kind not in makers:
            return match[0]
        mark = f"<!-- {kind}: {named} -->" if named else f"<!-- {kind} -->"
        end = [f"<!-- end of {kind} -->"] if match[3] else []
        return "\n".join([mark, *makers[kind](named), *end]) + "\n"

    return BLOCK.sub(made, text)


def without(text):
    """A page without its generated parts, each line at its place."""

    def own_columns(match):
        count = COLUMNS.get(match[1], 3)
        rows = [re.split(r"(?<!\\)\|", row)[1 + count : -1] for row in match[2].splitlines()]
        return "\n" + "".join(f"|{'|'.join(row)}|\n" if row else "\n" for row in rows)

    text = BLOCK.sub(lambda match: "\n" * match[0].count("\n"), text)
    return TEXTS.sub(own_columns, text)
