"""What is installed of elide: the proved program, and what belongs to it.

All of it is made of the sources alone, so that it has the same bytes each time.
"""

import gzip
import hashlib
import os
import re
import subprocess
import time
from dataclasses import dataclass

from kept import COMPILED, PROVED
from sources import HERE

# What the files of a package are made of, and what decides what the program does.
PARTS = ("README.md", "CHANGELOG.md", "docs", "examples", "completions", "scripts", "crates", "crates.txt")
# Where zsh looks for the completions of Debian's packages, and for those of others.
OF_PACKAGES, OF_OTHERS = "share/zsh/vendor-completions", "share/zsh/site-functions"
DOCUMENTS = "share/doc/elide"
COPYRIGHT = "No licence has been chosen for this program yet.\n"


class Unable(Exception):
    """Why nothing is installed."""


@dataclass
class File:
    """A file that is installed."""

    content: bytes
    mode: int = 0o644


@dataclass
class Build:
    """The proved program, and what it was made of."""

    program: bytes
    version: str
    kit: str
    sources: str
    commit: str
    # Seconds since 1970, of the commit.
    date: int
    # The first part that is not as the commit has it, if one is.
    changed: str

    def day(self):
        return time.strftime("%Y-%m-%dT%H:%M:%SZ", time.gmtime(self.date))


def command(*words):
    """What a command prints."""
    try:
        return subprocess.run(words, cwd=HERE, stdin=subprocess.DEVNULL, capture_output=True, text=True, check=True).stdout
    except OSError as error:
        raise Unable(f"{words[0]}: {error.strerror}") from error
    except subprocess.CalledProcessError as error:
        raise Unable(f"{words[0]} ended with status {error.returncode}: {error.stderr.strip()}") from error


def build():
    """The proved program; any other is refused."""
    noted = PROVED.noted()
    if not noted:
        other = f" ({os.path.relpath(COMPILED.path, HERE)} is compiled and not proved)" if COMPILED.noted() else ""
        raise Unable(f"there is no proved program{other}: scripts/build makes it")
    if not PROVED.fits():
        name = os.path.relpath(PROVED.path, HERE)
        raise Unable(f"{name} is not what was proved of the sources that stand here: scripts/build makes that")
    with open(PROVED.path, "rb") as file:
        program = file.read()
    commit, date = command("git", "log", "-1", "--format=%H %ct").split()
    changed = command("git", "status", "--porcelain", "--", *PARTS).splitlines()
    return Build(
        program, command(PROVED.path, "--version").split()[1], noted["kit"], noted["sources"], commit, int(date),
        changed[0].split()[-1] if changed else "",
    )


def files(made, zsh):
    """What is installed, by its path below the prefix, in order; `zsh` is the folder of its completions."""
    found = {
        "bin/elide": File(made.program, 0o755),
        "share/man/man1/elide.1.gz": File(gzip.compress(read("docs/elide.1"), 9, mtime=0)),
        "share/bash-completion/completions/elide": File(read("completions/elide.bash")),
        f"{zsh}/_elide": File(read("completions/_elide")),
        "share/fish/vendor_completions.d/elide.fish": File(read("completions/elide.fish")),
        "share/elide/elide.h": File(read("examples/c/elide.h")),
        "share/elide/elide-rtm.h": File(read("examples/c/elide-rtm.h")),
        "share/elide/elide.ld": File(read("examples/c/elide.ld")),
        f"{DOCUMENTS}/copyright": File(COPYRIGHT.encode()),
    }
    for line in command("git", "ls-files", "-s", "README.md", "CHANGELOG.md", "docs/*.md", "examples").splitlines():
        mode, _, _, path = line.split(maxsplit=3)
        found[f"{DOCUMENTS}/{path}"] = File(read(path), int(mode, 8) & 0o777)
    found[f"{DOCUMENTS}/BUILD-INFO"] = File(build_info(made, found).encode())
    return dict(sorted(found.items()))


def read(path):
    with open(f"{HERE}/{path}", "rb") as file:
        return file.read()


def build_info(made, found):
    """What the program was made of, and a sum of each file, as `sha256sum --check` reads it below the prefix."""
    sums = "".join(f"{hashlib.sha256(it.content).hexdigest()}  {path}\n" for path, it in sorted(found.items()))
    changed = " and changes that are in no commit" if made.changed else ""
    return (
        f"elide {made.version}, proved\n"
        f"kit: {made.kit}\ncommit: {made.commit}{changed}\ndate: {made.day()}\n"
        f"sources (scripts/build --sum): {made.sources}\n"
        f"files (SHA-256, below the prefix):\n{sums}"
    )


def libraries():
    """What the program needs of Debian's packages, told by the versions of the symbols that it takes."""
    needed = re.findall(r"NEEDED +(\S+)", command("objdump", "-p", PROVED.path))
    of_libc = ("libc.so.6", "libm.so.6", "ld-linux-x86-64.so.2")
    if not set(needed) <= set(of_libc):
        raise Unable(f"the program needs libraries that are not the C library's: {' '.join(needed)}")
    versions = re.findall(r"\(?GLIBC_([0-9.]+)\)?", command("objdump", "-T", PROVED.path))
    newest = max((tuple(map(int, it.split("."))) for it in versions), default=(2, 0))
    return f"libc6 (>= {'.'.join(map(str, newest))})"
