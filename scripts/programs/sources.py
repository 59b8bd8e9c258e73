"""The sources of the program: which crates it stands on, and sums of what these have.

The repository's crates.txt has a line for each crate, `name: the libraries that it stands on`.
"""

import hashlib
import os

HERE = os.path.dirname(os.path.dirname(os.path.dirname(os.path.realpath(__file__))))
TOP = "elide"
# What a crate is made of.
PARTS = ("src", "specs", "proofs")
# What a program is compiled of, and what was shown of it. A proof is no part of either: what it showed, it has shown.
CODE, STATED = ("src",), ("src", "specs")


def lines_of_crates():
    """The lines of crates.txt by the crate's name, without comments."""
    found = {}
    with open(f"{HERE}/crates.txt", encoding="utf-8") as file:
        for line in file:
            line = line.partition("#")[0].strip()
            if line:
                found[line.partition(":")[0].split()[0]] = line
    return found


def all_crates():
    """The crates of the repository by name, each with those of them that it stands on."""
    lines = lines_of_crates()
    return {name: [it for it in line.partition(":")[2].split() if it in lines] for name, line in lines.items()}


def below(uses, top):
    """The crates that one stands on, and itself, lowest first."""
    found = {}

    def visit(name):
        for it in uses[name]:
            if it not in found:
                visit(it)
        found[name] = True

    visit(top)
    return list(found)


def files_of(name, parts):
    """The files that a crate has in these of its folders, in one order."""
    for part in parts:
        for folder, folders, files in os.walk(f"{HERE}/crates/{name}/{part}"):
            folders.sort()
            for it in sorted(files):
                yield f"{folder}/{it}"


def lines_of(name):
    """How many lines of code, definitions and proofs a crate has."""
    count = 0
    for it in files_of(name, PARTS):
        with open(it, "rb") as file:
            count += file.read().count(b"\n")
    return count


def add_files(made, name, parts):
    """Takes a crate's files in these of its folders, and their names, into a sum."""
    for it in files_of(name, parts):
        with open(it, "rb") as file:
            text = file.read()
        made.update(f"{os.path.relpath(it, HERE)} ".encode() + text)


def sum_of(parts):
    """A sum of all that the program's crates have in these of their folders."""
    lines = lines_of_crates()
    made = hashlib.sha256()
    for name in below(all_crates(), TOP):
        made.update(f"{' '.join(lines[name].split())}\n".encode())
        add_files(made, name, parts)
    return made.hexdigest()


def watched():
    """The files and folders in which a change may make another program, or another claim."""
    folders = [f"crates/{name}/{part}" for name in below(all_crates(), TOP) for part in STATED]
    return ["crates.txt", *[it for it in folders if os.path.isdir(f"{HERE}/{it}")]]


def changed_since(at):
    """The first file or folder of these that was changed or put there since, in seconds since 1970, or out of which one was taken;
    nothing where none was. The time of a change of its state tells of a file that has an older time of its own, too."""
    for top in watched():
        parts = [f"{folder}/{it}" for folder, folders, files in os.walk(f"{HERE}/{top}") for it in (*folders, *files)]
        for it in (f"{HERE}/{top}", *parts):
            if os.lstat(it).st_ctime >= at:
                return os.path.relpath(it, HERE)
    return None
