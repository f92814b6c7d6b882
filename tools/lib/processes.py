"""What runs below a command, as /proc tells it."""
import pathlib


def crate_of(process):
    """The crate that a process of /proc has in hand, as its words tell, and these words."""
    words = (process / "cmdline").read_bytes().decode(errors="replace").split("\0")
    return (words[words.index("--crate-name") + 1] if "--crate-name" in words else None), words


def fields_of(process):
    """The fields of a process behind its name, as the system writes them: its state, the process that
    started it, and so on."""
    stat = (pathlib.Path("/proc") / str(process) / "stat").read_text(encoding="utf-8", errors="replace")
    return stat.rpartition(")")[2].split()


def is_below(process, root):
    """Whether a process was started by another, or by one that it started."""
    while process > 1 and process != root:
        process = int(fields_of(process)[1])
    return process == root


def running():
    """The processes, as folders of /proc."""
    return pathlib.Path("/proc").glob("[0-9]*")
