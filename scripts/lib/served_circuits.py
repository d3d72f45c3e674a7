"""The circuits of a configuration and the leases in the file of its `accessd`, for the scripts of operators."""
import errno
import json
import os
import pathlib
import stat
import subprocess
import tomllib

from operator_script import Refused, cause, say

BUILT = pathlib.Path(__file__).resolve().parent / "built"
# the status of `leases` where a circuit is closed, and every other one is listed
CLOSED = 3


def built(name):
    """The path of a program that is built; none is built for it."""
    found = subprocess.run([BUILT, name], stdin=subprocess.DEVNULL, capture_output=True)
    words = found.stderr.decode("utf-8", "replace").rstrip("\n")
    if found.returncode:
        raise Refused(5, words)
    if words:
        say(words)
    return found.stdout.decode("utf-8", "surrogateescape").removesuffix("\n")


def why_unread(*paths):
    """The system's cause why one of these files can't be read, or None."""
    for path in paths:
        try:
            # a FIFO is not waited for
            file = os.open(path, os.O_RDONLY | os.O_NONBLOCK | os.O_CLOEXEC)
            is_folder = stat.S_ISDIR(os.fstat(file).st_mode)
            os.close(file)
            if is_folder:
                return f"{path}: {os.strerror(errno.EISDIR)}"
        except OSError as error:
            return cause(error)
    return None


class Listing:
    """What `leases` says of a file by a configuration: a line for each lease and for each circuit that is closed or busy.
    Its words are those that the program has on standard error, and its status is 3 where a circuit is closed and none busy,
    and otherwise not 0 where it lists nothing or a circuit is busy."""

    def __init__(self, config, file):
        # -- stands before a path that begins with a dash
        command = [built("leases"), "--json", f"--disk={file}", "--", config]
        done = subprocess.run(command, stdin=subprocess.DEVNULL, capture_output=True)
        self.status, self.words = done.returncode, done.stderr.decode("utf-8", "replace").rstrip("\n")
        if self.status == 5:
            self.words = why_unread(config, file) or self.words
        self.lines = [json.loads(line) for line in done.stdout.splitlines()]

    def is_done(self):
        """Whether each circuit is listed or closed."""
        return self.status in (0, CLOSED)

    def unread(self, state):
        """Why each circuit is not listed that is in this state, 'closed' or 'busy', by its id."""
        return {line["circuit"]: line["why"] for line in self.lines if line["state"] == state}


def listing(config, file, takes_busy=False):
    """The listing, where `leases` refuses nothing, and no circuit is busy unless that is taken too."""
    found = Listing(config, file)
    busy = [f"{circuit}: {why}" for circuit, why in found.unread("busy").items()]
    if not found.is_done() and not (busy and takes_busy):
        raise Refused(found.status if found.status > 0 else 5, "\n".join(busy) or found.words or "leases was stopped")
    return found


def configuration(path):
    """The tables of a configuration. That it keeps the rules is for the programs to say: here it has circuits with ids."""
    data = pathlib.Path(path).read_bytes()
    try:
        # a text may begin with a byte order mark
        tables = tomllib.loads(data.decode("utf-8-sig"))
        circuits = tables["circuit"]
        if not all(isinstance(circuit["id"], str) for circuit in circuits):
            raise TypeError
    except UnicodeDecodeError:
        raise Refused(2, f"{path}: the file is not UTF-8") from None
    except tomllib.TOMLDecodeError as error:
        raise Refused(2, f"{path}: {error}") from None
    except (KeyError, TypeError, RecursionError):
        raise Refused(2, f"{path}: not a configuration: it has no circuits with ids") from None
    return tables


def place_of(tables, circuit, path):
    """A circuit's index and its table, by its id."""
    for index, table in enumerate(tables["circuit"]):
        if table["id"] == circuit:
            return index, table
    raise Refused(2, f"{path}: there is no circuit \"{circuit}\"")
