"""What an installation consists of: each file by its place below the prefix. For tools/install, tools/deb and
bindings/tarball."""
import pathlib
import re
from typing import NamedTuple, Optional

TOP = pathlib.Path(__file__).resolve().parent.parent
VERSION = (TOP / "VERSION").read_text(encoding="utf-8").strip()
LIBRARY = "libising2d.so"


class Entry(NamedTuple):
    """A file by its bytes, or a link by where it leads."""

    data: bytes = b""
    mode: int = 0o644
    link: Optional[str] = None


def example_files():
    """The examples, but for the tool that compares them."""
    return [file for file in sorted((TOP / "examples").rglob("*"))
            if file.is_file() and file.name != "compare" and "__pycache__" not in file.parts]


def soname():
    """The name by which programs look for the shared library."""
    return re.search(r"^name=(\S+)$", (TOP / "bindings" / "link").read_text(encoding="utf-8"), re.M)[1]


def oldest_glibc(data):
    """The newest version of glibc that a binary names: it runs on this and on all later ones. None where it is
    linked statically."""
    named = [(int(a), int(b)) for a, b in re.findall(rb"GLIBC_(\d+)\.(\d+)", data)]
    # Packed relocations, which some linkers make, have a name of their own.
    named += [(2, 36)] * (b"GLIBC_ABI_DT_RELR" in data)
    return ".".join(map(str, max(named))) if named else None


def is_static(data):
    """Whether a program of 64 bits asks for no loader: it has no header of the type INTERP (3)."""
    start, size = int.from_bytes(data[32:40], "little"), int.from_bytes(data[54:56], "little")
    count = int.from_bytes(data[56:58], "little")
    return not any(int.from_bytes(data[at : at + 4], "little") == 3 for at in range(start, start + count * size, size))


def program_part(program):
    """The program with the script that runs it, and what explains a line."""
    package = TOP / "bindings" / "python" / "ising2d"
    yield "bin/ising2d", Entry((TOP / "ising2d").read_bytes(), 0o755)
    yield "lib/ising2d/ising2d", Entry(program, 0o755)
    yield "lib/ising2d/VERSION", Entry(f"{VERSION}\n".encode())
    yield "lib/ising2d/explain", Entry((TOP / "tools" / "explain").read_bytes(), 0o755)
    # The module that tools/explain runs, with its data.
    for name in (re.search(r'"(_\w+\.py)"', (TOP / "tools" / "explain").read_text(encoding="utf-8"))[1], "texts.csv"):
        yield f"lib/ising2d/{name}", Entry((package / name).read_bytes())
    completions = TOP / "packaging"
    yield "share/bash-completion/completions/ising2d", Entry((completions / "ising2d.bash").read_bytes())
    yield "share/zsh/site-functions/_ising2d", Entry((completions / "_ising2d").read_bytes())


def library_part(shared, archive, prefix, libdir):
    """The library with its header, and what pkg-config says of it."""
    filled = (TOP / "packaging" / "ising2d.pc.in").read_text(encoding="utf-8")
    for word, value in (("@PREFIX@", prefix), ("@LIBDIR@", f"${{exec_prefix}}/{libdir}"), ("@VERSION@", VERSION)):
        filled = filled.replace(word, value)
    yield f"{libdir}/{LIBRARY}.{VERSION}", Entry(shared)
    yield f"{libdir}/{soname()}", Entry(link=f"{LIBRARY}.{VERSION}")
    yield f"{libdir}/{LIBRARY}", Entry(link=soname())
    yield f"{libdir}/libising2d.a", Entry(archive)
    yield f"{libdir}/pkgconfig/ising2d.pc", Entry(filled.encode())
    yield "include/ising2d.h", Entry((TOP / "bindings" / "c" / "ising2d.h").read_bytes())


def docs_part(shared, wheel):
    """The pages, the man pages and the examples."""
    import manual
    import pages

    yield "share/man/man1/ising2d.1", Entry(manual.ising2d().encode())
    yield "share/man/man3/libising2d.3", Entry(manual.libising2d().encode())
    packed = pages.pages()
    yield "share/doc/ising2d/README.md", Entry(pages.front_page(oldest_glibc(shared) or "2.14", wheel).encode())
    for old, new in packed.items():
        file = TOP / old
        data = pages.packed_page(old, packed).encode() if file.suffix == ".md" else file.read_bytes()
        yield f"share/doc/ising2d/{new}", Entry(data, 0o755 if file.stat().st_mode & 0o100 else 0o644)


def files(program, shared, archive, prefix="/usr/local", libdir="lib", wheel=None):
    """All of it, from the bytes of the program, of the shared library and of the archive, and the place of a
    wheel."""
    found = dict(program_part(program))
    found.update(library_part(shared, archive, prefix, libdir))
    if wheel:
        found[f"wheel/{wheel.name}"] = Entry(wheel.read_bytes())
    found.update(docs_part(shared, wheel))
    return found
