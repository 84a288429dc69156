"""Programs that run while one call of the C library fails, or ends them: what `checks/faults.rs` and `checks/kills.rs` make of the environment, and what the first one tells;
and those whose clock, disk and threads are steered (`checks/outside.rs`)."""
import mmap
import os
import shutil
import struct
import subprocess
import sys
from pathlib import Path

KINDS = ["ALLOCATE", "READ", "WRITE", "THREAD"]
WRITES_SHORT, READS_SHORT = 1, 2
# By how many millionths of a second a clock goes on in a second.
RATE = 1_000_000


def build(room, name="faults"):
    """The library that is loaded before a program, built into this folder. Without a compiler there is nothing to try."""
    if shutil.which("rustc") is None:
        sys.exit(print(f"{Path(sys.argv[0]).name}: rustc is not installed, so nothing was refused"))
    library = f"{room}/{name}.so"
    source = Path(__file__).resolve().parent / f"{name}.rs"
    subprocess.run(["rustc", "--edition", "2021", "-O", "--crate-type", "cdylib", "-o", library, source], check=True)
    return library


def environment(library, faults):
    """The environment of a program: `faults` has the number of the call that fails for each kind, and how short calls are."""
    return {**os.environ, "LD_PRELOAD": library, **{name: str(number) for name, number in faults.items()}}


def calls(told, status):
    """How many calls of each kind the program made, by the last line of what it told on standard error."""
    line = told.decode(errors="replace").splitlines()[-1:]
    words = line[0].split() if line else []
    if words[:1] != ["calls"]:
        sys.exit(f"the library told no calls: the program ended with status {status}, and told {told[-400:]!r}")
    return dict(zip(KINDS, map(int, words[1:])))


class Steered:
    """The clock, the disk and the threads of a process (`checks/outside.rs`): a file that the process looks at."""

    FIELDS = ("rate", "jump", "sync", "full", "hold", "every", "held")

    def __init__(self, path):
        self.path = path
        path.write_bytes(struct.pack("7q", RATE, *[0] * 6))
        with open(path, "r+b") as file:
            self.map = mmap.mmap(file.fileno(), 0)

    def environment(self, library):
        return {**os.environ, "LD_PRELOAD": library, "OUTSIDE": str(self.path)}

    def read(self, name):
        return struct.unpack_from("q", self.map, 8 * self.FIELDS.index(name))[0]

    def set(self, name, value):
        struct.pack_into("q", self.map, 8 * self.FIELDS.index(name), value)
