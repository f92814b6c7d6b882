"""Rows for tools/rows: words and an input, with what the built program must answer. Their values come from outside the
program: worked by hand, from the literature or by other programs.

Each file has one topic and yields its cases. A case is a name and a test. The test takes `run`, which runs the program
on words and on an input in bytes, and gives the exit status and the bytes of standard output. The test gives None, or
what it saw if that is wrong.
"""
# Exit statuses.
DONE, REFUSED, USAGE, NO = range(4)


def coded(given):
    return given.encode() if isinstance(given, str) else given


def named(words, given):
    """How a failed row is printed."""
    return f"{words or 'no words'} < {coded(given)[:60]!r}"


def answered(words, given, status, text):
    """A row: the exit status, and all that is written."""
    def test(run):
        seen = run(words, coded(given))
        return None if seen == (status, text.encode()) else seen
    return named(words, given), test


def answered_each(rows, words, status):
    """Rows of an input and a text."""
    return [answered(words, given, status, text) for given, text in rows]


def lines_answered(rows, status):
    """Rows of words, an input and a text."""
    return [answered(words, given, status, text) for words, given, text in rows]


def begun(words, given, front):
    """A row that is done, and whose text begins so."""
    def test(run):
        seen = run(words, coded(given))
        return None if is_begun(seen, front) else seen
    return named(words, given), test


def is_begun(seen, front):
    return seen[0] == DONE and seen[1].startswith(front.encode())


def proved(given, front):
    """An instance whose `ground` begins so, and has a proof: `check` says yes to the instance and that text."""
    def test(run):
        seen = run("ground", coded(given))
        return judged(run, given, seen[1]) if is_begun(seen, front) else seen
    return named("ground", given), test


def judged(run, given, stated):
    """None if `check` says yes to what is stated of an instance, or what it says instead."""
    seen = run("check", coded(given) + stated)
    return None if seen == (DONE, b"yes\n") else seen
