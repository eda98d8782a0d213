"""Installs hwp from its built programs, removes it, and makes a Debian package of it. The Makefile calls this (docs/INSTALL.md).

    python3 tools/installing.py install --prefix /usr/local
    python3 tools/installing.py uninstall --prefix /usr/local
    python3 tools/installing.py deb --out out

Status 0: done. 1: something is missing, and nothing was changed. 2: the words are others. 73: a file can't be written or removed.
"""
from __future__ import annotations

import argparse
import glob
import os
import re
import shutil
import subprocess
import sys
import tempfile
from typing import Dict, Iterator, List, NamedTuple, Sequence, Union

HOME = os.path.dirname(os.path.dirname(os.path.realpath(__file__)))
# The names of all that is installed, one a line; a folder that wasn't there before ends with a slash.
LIST = "lib/hwp/installed"
PROGRAMS = {"hwp": "crates/hwp/out/hwp", "hwp-trace": "crates/hwp_trace/out/hwp_trace"}
CONTROL = """\
Package: hwp
Version: {version}
Architecture: {architecture}
Maintainer: {maintainer}
Installed-Size: {size}
Depends: {libc}, python3 (>= 3.9)
Recommends: parallel
Section: devel
Priority: optional
Description: simulate memory failure behind machine-check banks
 hwp runs scripts on a simulated machine whose memory goes bad, and writes
 what became of each page, frame and command. hwp-trace writes a run turn by
 turn, and tools in Python draw runs and try many of them.
"""


class Missing(Exception):
    """What an installation needs and doesn't find."""


class File(NamedTuple):
    """A file to be copied, with its mode."""

    source: str
    mode: int


class Link(NamedTuple):
    """A symbolic link, or a short text, to be made."""

    text: str
    is_link: bool


Entries = Dict[str, Union[File, Link]]


def version() -> str:
    """The version that the changelog names first."""
    with open(os.path.join(HOME, "CHANGELOG.md"), encoding="utf-8") as text:
        found = re.search(r"^## (\d+\.\d+\.\d+)\b", text.read(), re.MULTILINE)
    if not found:
        raise Missing("CHANGELOG.md has no heading with a version")
    return found[1]


def built(given: Dict[str, str]) -> Dict[str, str]:
    """The paths of the programs: those that are given, and else the built ones, if no source is newer."""
    paths, lacks = {}, []
    for name, place in PROGRAMS.items():
        path = given[name] or os.path.join(HOME, place)
        if given[name]:
            if not (os.path.isfile(path) and os.access(path, os.X_OK)):
                lacks.append(f"{path} is no program")
        else:
            unset = {key: value for key, value in os.environ.items() if not key.startswith("HWP_")}
            words = [os.path.join(HOME, "bin", name), "--version"]
            ran = subprocess.run(words, stdin=subprocess.DEVNULL, capture_output=True, text=True, check=False, env={**unset, "HWP_BUILD": "never"})
            if ran.returncode:
                lacks.append(ran.stderr.strip() or f"{path} ends with status {ran.returncode}")
        paths[name] = path
    if lacks:
        raise Missing("\n".join(lacks))
    return paths


def below(top: str) -> Iterator[str]:
    """The files below a folder of the repository, as paths from there, but for tests and what Python leaves."""
    for at, folders, names in os.walk(os.path.join(HOME, top)):
        folders[:] = sorted(folder for folder in folders if folder != "__pycache__")
        for name in sorted(names):
            if not name.startswith("test"):
                yield os.path.relpath(os.path.join(at, name), HOME)


def entries(programs: Dict[str, str]) -> Entries:
    """All that is installed, by its place below the prefix."""
    found: Entries = {f"lib/hwp/bin/{name}": File(path, 0o755) for name, path in programs.items()}

    def add(place: str, path: str) -> None:
        found[place] = File(os.path.join(HOME, path), 0o755 if os.access(os.path.join(HOME, path), os.X_OK) else 0o644)

    for path in glob.glob(os.path.join(HOME, "bin", "hwp-*")):
        if os.path.basename(path) not in programs:
            add(f"lib/hwp/bin/{os.path.basename(path)}", path)
    for folder in glob.glob(os.path.join(HOME, "tools", "hwp_*", "")):
        for path in below(os.path.relpath(folder, HOME)):
            add(f"lib/hwp/{path}", path)
    for place in [place for place in found if place.startswith("lib/hwp/bin/")]:
        found[f"bin/{os.path.basename(place)}"] = Link(f"../{place}", True)
    found["share/man/man1/hwp-trace.1"] = Link(".so man1/hwp.1\n", False)
    found["share/bash-completion/completions/hwp-trace"] = Link("hwp", True)
    for path in glob.glob(os.path.join(HOME, "docs", "*.1")):
        add(f"share/man/man1/{os.path.basename(path)}", path)
    for path in glob.glob(os.path.join(HOME, "docs", "completion", "*.bash")):
        add(f"share/bash-completion/completions/{os.path.basename(path)[: -len('.bash')]}", path)
    for path in below("docs/vim"):
        add(f"share/vim/vimfiles/{os.path.relpath(path, 'docs/vim')}", path)
    documents = [os.path.relpath(path, HOME) for path in glob.glob(os.path.join(HOME, "docs", "*.md"))]
    for path in ["README.md", "CHANGELOG.md", *documents, *below("examples")]:
        add(f"share/doc/hwp/{path}", path)
    return found


def new_folders(top: str, places: Sequence[str]) -> List[str]:
    """The folders that these places need and that aren't there, the uppermost first."""
    needed = {os.path.dirname(place) for place in places}
    for folder in list(needed):
        while os.path.dirname(folder):
            folder = os.path.dirname(folder)
            needed.add(folder)
    return sorted(folder for folder in needed if not os.path.isdir(os.path.join(top, folder)))


def put(top: str, place: str, entry: Union[File, Link]) -> None:
    """Puts one file or link in its place; what stood there stays whole until then."""
    path = os.path.join(top, place)
    new = f"{path}.new"
    if os.path.lexists(new):
        os.remove(new)
    if isinstance(entry, File):
        shutil.copyfile(entry.source, new)
        os.chmod(new, entry.mode)
    elif entry.is_link:
        os.symlink(entry.text, new)
    else:
        with open(new, "w", encoding="utf-8") as out:
            out.write(entry.text)
        os.chmod(new, 0o644)
    os.replace(new, path)


def make_folders(top: str, folders: Sequence[str]) -> None:
    """Makes these folders, and those above the top."""
    os.makedirs(top, exist_ok=True)
    for folder in folders:
        os.mkdir(os.path.join(top, folder))
        os.chmod(os.path.join(top, folder), 0o755)


def listed(top: str) -> List[str]:
    """The list of an earlier installation, if there is one."""
    path = os.path.join(top, LIST)
    if not os.path.exists(path):
        return []
    with open(path, encoding="utf-8") as lines:
        return lines.read().splitlines()


def remove(top: str, places: Sequence[str]) -> None:
    """Removes these files and links, and these folders where nothing is left in them."""
    for place in sorted(places, reverse=True):
        path = os.path.join(top, place)
        if place.endswith("/"):
            if os.path.isdir(path) and not os.listdir(path):
                os.rmdir(path)
        elif os.path.lexists(path):
            os.remove(path)


def install(top: str, given: Dict[str, str]) -> None:
    """Installs all below the top. The list is written first, so that an installation which was broken off can be removed."""
    wanted, before = entries(built(given)), listed(top)
    folders = new_folders(top, [*wanted, LIST])
    make_folders(top, folders)
    names = {*wanted, *(f"{folder}/" for folder in folders), *(place for place in before if place.endswith("/"))}
    put(top, LIST, Link("".join(f"{place}\n" for place in sorted({*names, *before})), False))
    for place, entry in sorted(wanted.items()):
        put(top, place, entry)
    remove(top, [place for place in before if place not in names])
    put(top, LIST, Link("".join(f"{place}\n" for place in sorted(names)), False))
    print(f"hwp {version()} is installed below {top}: {len(wanted)} files")


def uninstall(top: str) -> None:
    """Removes what an installation has put below the top."""
    places = listed(top)
    if not places:
        raise Missing(f"no hwp is installed below {top}: there is no {os.path.join(top, LIST)}")
    # The list goes last, and then the folders that it was in.
    remove(top, [place for place in places if not place.endswith("/")])
    os.remove(os.path.join(top, LIST))
    remove(top, [place for place in places if place.endswith("/")])
    print(f"hwp is removed from {top}")


def libc_of(programs: Sequence[str]) -> str:
    """The C library that programs need, by the names of the symbols' versions in them."""
    versions = set()
    for program in programs:
        with open(program, "rb") as file:
            found = re.findall(rb"GLIBC_(\d+(?:\.\d+)+)", file.read())
        versions |= {tuple(int(part) for part in each.split(b".")) for each in found}
    return f"libc6 (>= {'.'.join(str(part) for part in max(versions))})" if versions else "libc6"


def control(programs: Dict[str, str], maintainer: str, root: str) -> str:
    """What the package says of itself."""
    ran = subprocess.run(["dpkg", "--print-architecture"], stdout=subprocess.PIPE, text=True, check=True)
    sizes = (os.lstat(os.path.join(at, name)).st_size for at, _, names in os.walk(root) for name in names)
    libc = libc_of(list(programs.values()))
    return CONTROL.format(
        version=version(), architecture=ran.stdout.strip(), maintainer=maintainer, size=-(-sum(sizes) // 1024), libc=libc
    )


def package(out: str, given: Dict[str, str], maintainer: str) -> None:
    """Makes the Debian package in a folder."""
    if not shutil.which("dpkg-deb"):
        raise Missing("dpkg-deb (Debian's package dpkg) is needed")
    programs = built(given)
    wanted = entries(programs)
    os.makedirs(out, exist_ok=True)
    with tempfile.TemporaryDirectory(prefix="hwp-deb.") as room:
        root = os.path.join(room, "root")
        make_folders(os.path.join(root, "usr"), new_folders(os.path.join(root, "usr"), list(wanted)))
        for place, entry in wanted.items():
            put(os.path.join(root, "usr"), place, entry)
        text = control(programs, maintainer, root)
        os.mkdir(os.path.join(root, "DEBIAN"))
        with open(os.path.join(root, "DEBIAN", "control"), "w", encoding="utf-8") as file:
            file.write(text)
        for folder in (root, os.path.join(root, "usr"), os.path.join(root, "DEBIAN")):
            os.chmod(folder, 0o755)
        found = re.search(r"^Architecture: (.*)$", text, re.MULTILINE)
        name = f"hwp_{version()}_{found[1] if found else 'all'}.deb"
        subprocess.run(["dpkg-deb", "--root-owner-group", "--build", root, os.path.join(room, name)], stdout=subprocess.DEVNULL, check=True)
        new = os.path.join(out, f"{name}.new")
        shutil.copyfile(os.path.join(room, name), new)
        os.replace(new, os.path.join(out, name))
    print(os.path.join(out, name))


def main(words: Sequence[str]) -> int:
    """Reads the words, and does what they say."""
    description, _, statuses = (__doc__ or "").rpartition("\n\n")
    parser = argparse.ArgumentParser(
        prog="installing.py", description=description, epilog=statuses, formatter_class=argparse.RawDescriptionHelpFormatter
    )
    parser.add_argument("what", choices=("install", "uninstall", "deb"))
    parser.add_argument("--prefix", default="/usr/local", help="the folder that has bin, lib and share (%(default)s)")
    parser.add_argument("--destdir", default="", help="stands before the prefix while files are written")
    parser.add_argument("--hwp", default="", metavar="PROGRAM", help=f"the program to install as hwp, else {PROGRAMS['hwp']}")
    parser.add_argument("--trace", default="", metavar="PROGRAM", help=f"the program to install as hwp-trace, else {PROGRAMS['hwp-trace']}")
    parser.add_argument("--out", default="out", help="the folder for the package (%(default)s)")
    parser.add_argument("--maintainer", default="hwp <hwp@localhost>", help="who the package names (%(default)s)")
    given = parser.parse_args(words)
    top = given.destdir + os.path.abspath(given.prefix)
    programs = {"hwp": given.hwp, "hwp-trace": given.trace}
    try:
        if given.what == "install":
            install(top, programs)
        elif given.what == "uninstall":
            uninstall(top)
        else:
            package(given.out, programs, given.maintainer)
    except Missing as why:
        print(f"hwp is not {'removed' if given.what == 'uninstall' else 'installed' if given.what == 'install' else 'packed'}:\n{why}", file=sys.stderr)
        return 1
    except OSError as fault:
        print(f"hwp: {fault.filename or given.what}: {fault.strerror}", file=sys.stderr)
        return 73
    return 0


if __name__ == "__main__":
    sys.exit(main(sys.argv[1:]))
