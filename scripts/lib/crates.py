"""The crates of this clone, by crates.txt: which of them stand below which, and whether a built program is as young as its sources."""
import functools
from pathlib import Path

ROOT = Path(__file__).resolve().parent.parent.parent
CRATES = ROOT / "crates"
# what a program is built of, and what it is proved by besides
SOURCES, PROVED_BY = ("src",), ("src", "specs", "proofs")


@functools.cache
def libraries():
    """The crates in the order of crates.txt, each with those that its line names. Others are the toolchain's."""
    lines = [line.partition(":") for line in (ROOT / "crates.txt").read_text().splitlines() if line and not line.startswith("#")]
    names = [name for name, _, _ in lines]
    return {name: [word for word in words.split() if word in names] for name, _, words in lines}


@functools.cache
def with_below(name):
    """A crate and all that it stands on, the lowest first."""
    found = dict.fromkeys(below for library in libraries()[name] for below in with_below(library))
    return [*found, name]


def is_program(name):
    return name in libraries() and (CRATES / name / "src/main.rt").exists()


@functools.cache
def changed(name, parts):
    """When a file of this crate was last changed, or one was added or taken away."""
    places = [path for part in parts for path in (CRATES / name / part).glob("**")]
    files = [path for place in places for path in place.iterdir() if path.is_file()]
    return max((path.stat().st_mtime for path in places + files), default=0)


def is_younger(file, name, parts):
    """Whether a file that was made of a crate and of all that it stands on is as young as all of these."""
    if not file.exists():
        return False
    newest = max([(ROOT / "crates.txt").stat().st_mtime, *(changed(crate, parts) for crate in with_below(name))])
    return newest <= file.stat().st_mtime


def program_of(name):
    """Where a program is once it is proved and built."""
    return CRATES / name / "out" / name


def is_proved(name):
    """Whether a program is there that was proved and built of these sources."""
    return is_younger(program_of(name), name, PROVED_BY)
