"""What the scripts of scripts/measure do alike: they start an `accessd` in one of several ways, compile a program in C, put a process on
a processor of its own, and measure again if a virtual machine's host took processor time away."""
import argparse
import ctypes
import os
import pathlib
import resource
import shlex
import signal
import statistics
import subprocess
import time
import typing

from client import Server

ROOT = pathlib.Path(__file__).resolve().parent.parent.parent
MEASURE = ROOT / "scripts/measure"
PROGRAM = ROOT / "crates/accessd/out/accessd"
# the most that there can be: without a pause they are over in half a second in which nobody sends
MOST_TURNS = 1_000_000
# of a compiler, in seconds
LIMIT = 30
# of prctl(2)
SET_DEATH_SIGNAL = 1
# Seconds of processor time that a virtual machine's host may take from it during a run that counts, how often a run is made
# again for that, and after how many seconds
MOST, AGAIN, PAUSE = 0.02, 9, 2


class Way(typing.NamedTuple):
    """A way to serve, by its name: a program, and its words beside those for the configuration and the leases."""

    name: str
    program: pathlib.Path
    words: list

    def start(self, config, leases, *more, **how):
        """A server from when it is ready, with these words more. It makes as many turns as its words say, or as there can be."""
        turns, rest = MOST_TURNS, self.words
        if "--turns" in rest:
            at = rest.index("--turns")
            turns, rest = rest[at + 1], rest[:at] + rest[at + 2:]
        return Server(str(self.program), config, leases, *rest, *more, turns=turns, **how)


def ways_of(program, old, each):
    """Each of these words with the program, and before that with an old one if there is one."""
    programs = {"old": old.resolve(), "new": program.resolve()} if old else {"": program.resolve()}
    return [Way(" ".join(filter(None, (label, *words))), path, words) for words in each for label, path in programs.items()]


def words_to_serve(text):
    """Reads an argument that says how an `accessd` serves, such as '--batch 16' or '--service'."""
    words = shlex.split(text)
    if words[-1:] == ["--turns"]:
        raise argparse.ArgumentTypeError("--turns has no number")
    return words


def add_words(reader, name="--program"):
    """The arguments that say which programs are measured, and how they serve."""
    reader.add_argument(name, type=pathlib.Path, default=PROGRAM, dest="program", metavar="ACCESSD")
    reader.add_argument("--old", type=pathlib.Path, metavar="OLD")
    reader.add_argument("--words", type=words_to_serve, action="append", metavar="WORDS")


def build(program):
    """Sees to it that the program of this clone is there, if it is the one that is wanted."""
    if program == PROGRAM:
        subprocess.run([ROOT / "accessd", "--version"], check=True, stdout=subprocess.DEVNULL)


def configuration(folder, circuits, relays=1):
    """The path of a configuration of so many circuits behind so many relays, which this writes."""
    path = f"{folder}/{circuits}-{relays}.toml"
    command = [ROOT / "scripts/lib/configuration", str(circuits), str(relays)]
    pathlib.Path(path).write_bytes(subprocess.run(command, check=True, capture_output=True).stdout)
    return path


def open_many_files():
    """Lets this process and those that it starts have as many files open as the system grants: a circuit has two sockets."""
    most = resource.getrlimit(resource.RLIMIT_NOFILE)[1]
    resource.setrlimit(resource.RLIMIT_NOFILE, (most, most))


def compile_c(name, folder, *options, parts=()):
    """Compiles this source of scripts/measure, with its further parts, into the folder."""
    program = f"{folder}/{name}"
    sources = [MEASURE / f"{part}.c" for part in (name, *parts)]
    subprocess.run(["cc", "-O2", "-Wall", "-Wextra", *options, "-o", program, *sources], check=True, timeout=LIMIT)
    return program


def slower_syncs(microseconds, folder):
    """The variables of an environment in which each sync of a file takes so much longer; `folder` has what is compiled for that."""
    library = compile_c("slow_sync", folder, "-shared", "-fPIC")
    return {"LD_PRELOAD": library, "SLOW_SYNC": str(microseconds)}


def on_processor(number):
    """What puts a process on this processor alone, where there are so many; it runs between fork and exec."""
    processors = sorted(os.sched_getaffinity(0))
    if len(processors) <= number:
        return None
    # the last ones, since the first is the one that most interrupts go to
    return lambda: os.sched_setaffinity(0, {processors[-1 - number]})


def dying_with_us(number):
    """The same, and the process is killed when this one ends, however it does."""
    pin, libc = on_processor(number), ctypes.CDLL(None)

    def prepare():
        libc.prctl(SET_DEATH_SIGNAL, signal.SIGKILL)
        if pin:
            pin()
    return prepare


def host_seconds():
    """The seconds of processor time that this machine's host has taken from it so far."""
    return int(pathlib.Path("/proc/stat").read_text().split()[8]) / os.sysconf("SC_CLK_TCK")


def quietest(run):
    """What this gives when the host took next to nothing meanwhile, or of several runs the one in which it took least."""
    tries = []
    while not tries or tries[-1][0] > MOST and len(tries) <= AGAIN:
        time.sleep(PAUSE if tries else 0)
        before = host_seconds()
        found = run()
        tries.append((host_seconds() - before, found))
    return min(tries, key=lambda one: one[0])[1]


def in_turn(ways, rounds, measure):
    """What this gives for each of the ways in each round, in lists by the way's name. Every other round begins with the last way."""
    found = {way.name: [] for way in ways}
    for turn in range(rounds):
        for way in ways if turn % 2 == 0 else reversed(ways):
            found[way.name].append(measure(way))
    return found


def quartiles(figures, others):
    """A quarter, half and three quarters of the ratios are at most this: of these figures to the others of their rounds."""
    return statistics.quantiles((one / other for one, other in zip(figures, others)), n=4)
