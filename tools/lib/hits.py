"""How often functions of a program or a library are entered, by gdb."""
import re
import shlex
import shutil
import subprocess
import tempfile

COUNTER = """
import gdb
for line in ("set pagination off", "set confirm off", "set breakpoint pending on", "set style enabled off"):
    gdb.execute(line)
points = [gdb.Breakpoint(spec="*(&'%s')" % name) if {is_exact} else gdb.Breakpoint(function=name) for name in {names!r}]
for point in points:
    point.ignore_count = 2**31 - 1
gdb.execute({redirected!r})
print("COUNTED", *(point.hit_count for point in points))
print("ENDED", gdb.parse_and_eval("$_exitcode"))
"""


def functions(file, starts):
    """The functions that a file names whose names begin so, but for those that let go of values."""
    if shutil.which("nm") is None:
        return []
    listed = subprocess.run(["nm", file], stdout=subprocess.PIPE, stderr=subprocess.DEVNULL).stdout.decode()
    named = [line.split(maxsplit=2) for line in listed.splitlines()]
    names = [line[2] for line in named if len(line) == 3 and line[1] in "tT" and line[2].startswith(starts)]
    return [name for name in names if "Destruct" not in name and "'" not in name]


def counted(names, words, source=None, within=None, is_exact=False):
    """How often each function is entered by a run of these words, with a file as its standard input, or None
    where gdb cannot tell or the run ends badly. Functions of a library are found when it is loaded, those of
    the program itself, exactly by their names."""
    if shutil.which("gdb") is None or not names:
        return None
    # gdb's run with words takes these in place of all that it was given.
    redirected = f"{shlex.join(map(str, words[1:]))} < {shlex.quote(str(source))} > /dev/null" if source else ""
    with tempfile.NamedTemporaryFile("w", suffix=".py") as script:
        script.write(COUNTER.format(names=list(names), redirected=f"run {redirected}".strip(), is_exact=is_exact))
        script.flush()
        gdb = ["gdb", "-nx", "-batch", "-x", script.name, "--args", *map(str, words)]
        how = {"stdin": subprocess.DEVNULL, "stdout": subprocess.PIPE, "stderr": subprocess.DEVNULL, "timeout": within}
        try:
            told = subprocess.run(gdb, **how).stdout.decode(errors="replace")
        except subprocess.TimeoutExpired:
            return None
    found = re.search(r"^COUNTED((?: \d+)*)$", told, re.M)
    if found is None or not re.search(r"^ENDED 0$", told, re.M):
        return None
    return [int(number) for number in found[1].split()]
