"""The repository's programs, each proved and built first where it is missing or older than a source."""
import subprocess
import sys
from pathlib import Path

TOP = Path(__file__).resolve().parent.parent
HERMES = TOP / "crates/hermes/out/hermes"


def is_stale(program):
    """Whether the program is missing, or older than a source of any crate."""
    if not program.exists():
        return True
    sources = [file for ending in ("*.rt", "*.antt") for file in (TOP / "crates").rglob(ending) if "out" not in file.parts]
    return any(file.stat().st_mtime > program.stat().st_mtime for file in [TOP / "crates.txt", *sources])


def program(name):
    """The path of the program of this crate, a small one."""
    path = TOP / "crates" / name / "out" / name
    if is_stale(path):
        print(f"{name}: proving and building it, which may take an hour", file=sys.stderr, flush=True)
        subprocess.run(["rt", "run"], cwd=TOP / "crates" / name, stdin=subprocess.DEVNULL, stdout=subprocess.DEVNULL, stderr=subprocess.DEVNULL)
        if not path.exists():
            sys.exit(f"{name}: it was not built; `rt run` in crates/{name} says why")
    return path


def hermes():
    """The path of the proved program `hermes`. Where it can't be proved nothing is checked."""
    if subprocess.run([TOP / "hermes", "prove"], stdin=subprocess.DEVNULL, stdout=subprocess.DEVNULL).returncode != 0:
        sys.exit("hermes: it was not proved, so nothing was checked")
    return str(HERMES)
